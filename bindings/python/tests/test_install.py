"""The package is built and installed offline, from the archive or from an installed library; and it says what is missing."""
import os
import shutil
import subprocess
import sys

import pytest

import build_library
from commands import surroundings
from helpers import EXAMPLES, ROOT

ARCHIVE = os.environ.get("CAPGAUZE_ARCHIVE") or str(ROOT / "target/staticlib/libcapgauze_c.a")


@pytest.fixture
def copied(tmp_path):
    """The sources alone, elsewhere."""
    ignored = shutil.ignore_patterns("_capgauze.*", "_declared.py", "__pycache__", "build", "*.egg-info", ".*")
    shutil.copytree(ROOT / "bindings/python", tmp_path / "bindings/python", ignore=ignored)
    shutil.copytree(ROOT / "bindings/c", tmp_path / "bindings/c")
    (tmp_path / "bindings/rust").mkdir()
    (tmp_path / "tools").mkdir()
    shutil.copy(ROOT / "tools/x86-64.sh", tmp_path / "tools")  # asked by build.sh on other processors
    shutil.copy(ROOT / "bindings/rust/Cargo.toml", tmp_path / "bindings/rust")
    return tmp_path / "bindings/python"


def clean(**more):
    """The environment without what names a library."""
    named = {"PYTHONPATH", "CAPGAUZE_ARCHIVE", "PKG_CONFIG_PATH"} - set(more)
    return {name: value for name, value in surroundings(**more).items() if name not in named}


def ran(command, folder, **more):
    return subprocess.run([str(word) for word in command], cwd=folder, env=clean(**more), capture_output=True, text=True, timeout=120)


class TestNotBuilt:
    def test_no_library(self, copied):
        done = ran([sys.executable, "setup.py", "--version"], copied, PKG_CONFIG_PATH="/nowhere", PKG_CONFIG_LIBDIR="/nowhere")
        assert (done.returncode, done.stderr.splitlines()[-1]) == (1, f"capgauze: {build_library.NOT_BUILT}")
        done = ran([sys.executable, "setup.py", "--version"], copied, CAPGAUZE_ARCHIVE="/nowhere/x.a")
        assert (done.returncode, done.stderr.splitlines()[-1]) == (1, f"capgauze: there is no archive /nowhere/x.a: {build_library.NOT_BUILT}")

    def test_no_extension(self, copied):
        done = ran([sys.executable, "-c", "import capgauze"], copied)
        assert done.returncode == 1
        assert done.stderr.splitlines()[-1].startswith("ImportError: capgauze is not built: bindings/python/build.sh builds it, of the archive that")

    @pytest.mark.parametrize("module, call, debian", [
        ("numpy", "capgauze.levels(b'')", "python3-numpy"), ("pandas", "capgauze.dataframe(b'')", "python3-pandas"),
        ("xarray", "capgauze.dataset(b'')", "python3-xarray"), ("dask", "capgauze.dask.read_soundings('x')", "python3-dask"),
        ("matplotlib", "capgauze.plot.draw(capgauze.Sounding(1, 2, []))", "python3-matplotlib")])
    def test_no_optional_package(self, module, call, debian):
        code = f"import sys; sys.modules[{module!r}] = None; import capgauze, capgauze.plot, capgauze.dask; {call}"
        done = subprocess.run([sys.executable, "-c", code], env=surroundings(), capture_output=True, text=True)
        last = done.stderr.splitlines()[-1]
        assert last.startswith("capgauze._optional.Missing: ") and last.endswith(f"needs {module} (Debian: {debian})")

    def test_a_command_without_its_package(self, tmp_path):
        code = ("import sys; sys.modules['matplotlib'] = None; from capgauze.cli import main; "
                "sys.exit(main(['plot', sys.argv[1], '-o', 'x.svg']))")
        done = subprocess.run([sys.executable, "-c", code, str(EXAMPLES / "iced.hex")], env=surroundings(), cwd=tmp_path, capture_output=True, text=True)
        assert (done.returncode, done.stderr) == (1, "capgauze plot: drawing needs matplotlib (Debian: python3-matplotlib)\n")


@pytest.mark.slow
@pytest.mark.skipif(not os.path.isfile(ARCHIVE), reason="no archive here")
class TestInstalled:
    def test_by_pip_without_a_network(self, copied, tmp_path):
        pytest.importorskip("ensurepip")
        assert ran([sys.executable, "-m", "venv", "--system-site-packages", tmp_path / "venv"], tmp_path).returncode == 0
        command = [tmp_path / "venv/bin/python", "-m", "pip", "install", "--quiet", "--no-index", "--no-build-isolation", "--no-deps", copied]
        done = ran(command, tmp_path, CAPGAUZE_ARCHIVE=ARCHIVE)
        assert done.returncode == 0, done.stderr
        done = ran([tmp_path / "venv/bin/capgauze", "soundings", EXAMPLES / "rows.hex"], tmp_path)
        assert (done.returncode, done.stdout.splitlines()[-1]) == (0, "4,,,,,,,HEX")
        version = ran([tmp_path / "venv/bin/capgauze", "--version"], tmp_path).stdout
        assert version == f"capgauze {build_library.version()}\n"
        assert (tmp_path / "venv/share/man/man1/capgauze.1").read_text() == (copied / "capgauze.1").read_text()
        installed = ran([tmp_path / "venv/bin/python", "-c", "import capgauze, os; print(os.listdir(os.path.dirname(capgauze.__file__)))"], tmp_path)
        assert "py.typed" in installed.stdout and str(tmp_path / "venv") in ran(
            [tmp_path / "venv/bin/python", "-c", "import capgauze; print(capgauze.__file__)"], tmp_path).stdout

    @pytest.mark.skipif(shutil.which("pkg-config") is None, reason="no pkg-config here")
    def test_from_an_installed_library(self, copied, tmp_path):
        prefix = tmp_path / "prefix"
        for folder in ("lib/pkgconfig", "include"):
            (prefix / folder).mkdir(parents=True)
        shutil.copy(ARCHIVE, prefix / "lib/libcapgauze.a")
        shutil.move(copied.parent / "c/capgauze.h", prefix / "include/capgauze.h")
        (prefix / "lib/pkgconfig/capgauze.pc").write_text(
            f"prefix={prefix}\nlibdir=${{prefix}}/lib\nincludedir=${{prefix}}/include\nName: capgauze\nDescription: .\nVersion: 0.1.0\n"
            "Libs: -L${libdir} -lcapgauze\nCflags: -I${includedir}\n")
        found = {"PKG_CONFIG_PATH": str(prefix / "lib/pkgconfig"), "PYTHON": sys.executable}
        done = ran(["sh", copied / "build.sh"], tmp_path, **found)
        assert (done.returncode, done.stdout) == (0, "built bindings/python/capgauze\n"), done.stderr
        done = ran([sys.executable, "-c", "import capgauze; print(capgauze.__file__, capgauze.records(bytes([4, 5])))"], copied)
        assert done.stdout.startswith(str(copied)) and "value=5" in done.stdout
