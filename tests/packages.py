"""What tests need of Debian's packages: it is installed where it is not there, and a test is left out where that is not possible."""
import os
import shutil
import subprocess

SECONDS = 240
QUICKLY = ["-o", "Acquire::Retries=0", "-o", "Acquire::http::Timeout=15"]


def install(package):
    """Tries to install a package; nothing is said of how that ends."""
    if os.geteuid() != 0 or not shutil.which("apt-get"):
        return
    for words in (["update"], ["install", "--yes", "--no-install-recommends", package]):
        try:
            own = {**os.environ, "DEBIAN_FRONTEND": "noninteractive"}
            subprocess.run(["apt-get", "-qq", *QUICKLY, *words], stdin=subprocess.DEVNULL, capture_output=True, timeout=SECONDS, env=own, check=False)
        except subprocess.TimeoutExpired:
            return


def is_there(package, found):
    """Whether what a package has is there, or has been installed now; where not, one line says that the test is left out."""
    if not found():
        install(package)
    if found():
        return True
    print(f"left out: the package {package} is not there, and could not be installed")
    return False
