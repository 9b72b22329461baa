"""How much memory the program may take: three quarters of what the system tells as free, shared by what runs at once, or what ARMC_MEMORY says."""
import os
import re

FREE = "/proc/meminfo"


def allowed():
    """The bytes of all that runs at once: ARMC_MEMORY is in MB. None where it is 0, or where the system tells nothing."""
    given = os.environ.get("ARMC_MEMORY", "")
    if given and not (given.isascii() and given.isdigit()):
        raise ValueError(f"ARMC_MEMORY is no number of megabytes: {given}")
    return (int(given) << 20 or None) if given else three_quarters()


def three_quarters():
    try:
        with open(FREE, encoding="ascii") as file:
            found = re.search(r"^MemAvailable: +(\d+) kB$", file.read(), re.M)
    except OSError:
        return None
    return int(found[1]) * 1024 * 3 // 4 if found else None


def share(jobs, most=None):
    """The bytes of each of so many at once, `most` at most where it is given; None for no limit."""
    bytes_of_all = allowed()
    known = [each for each in (bytes_of_all and bytes_of_all // max(1, jobs), most) if each]
    return min(known) if known else None
