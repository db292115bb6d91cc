"""What a script of this folder says of its use: the text at its head."""
import sys


def is_asked(text, arguments):
    """Whether the first argument asks for help. Then the text is printed."""
    found = arguments[:1] in (["-h"], ["--help"])
    if found:
        print(text.strip())
    return found


def stop(text):
    """Ends the script with status 2, after wrong arguments. The text is printed to standard error."""
    print(text.strip(), file=sys.stderr)
    sys.exit(2)
