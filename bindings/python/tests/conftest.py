"""The package and what lies beside it are found from here, installed or not; the examples of its text are tests too."""
import pathlib
import sys

from hypothesis import HealthCheck, settings

HERE = pathlib.Path(__file__).resolve().parent
sys.path[:0] = [str(HERE), str(HERE.parent)]

settings.register_profile("capgauze", deadline=None, max_examples=60, suppress_health_check=[HealthCheck.too_slow, HealthCheck.data_too_large])
settings.load_profile("capgauze")
