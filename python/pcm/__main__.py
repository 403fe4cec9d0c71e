"""`python3 -m pcm COMMAND ..`, or `python3 PATH COMMAND ..` with the folder's path: what the package does by itself."""
import os
import sys

if not __package__:
    sys.path[0] = os.path.dirname(os.path.dirname(os.path.abspath(__file__)))

from pcm import differing, energy, explaining, latencies, parting, report

USAGE = "usage: python3 -m pcm report|energy|latencies|differ|explain|parts .. [options]  (python3 -m pcm COMMAND --help tells more)"
_COMMANDS = {
    "report": report.main, "energy": energy.main, "latencies": latencies.main, "differ": differing.main, "explain": explaining.main,
    "parts": parting.main,
}


def main() -> int:
    """Goes by the first word."""
    words = sys.argv[1:]
    if words[:1] and words[0] in _COMMANDS:
        return _COMMANDS[words[0]](words[1:])
    if words[:1] in (["-h"], ["--help"]):
        print(USAGE)
        return 0
    print(USAGE if not words else f"there is no command {words[0]}; {USAGE}", file=sys.stderr)
    return 2


if __name__ == "__main__":
    sys.exit(main())
