"""python -m capgauze"""
import sys

from .cli import main

sys.exit(main())
