"""The program run_chart, called with a chart and events."""
import subprocess


def run(program, chart, events):
    """The lines that the program prints."""
    out = subprocess.run([program], input=chart + bytes(events), stdout=subprocess.PIPE, check=True).stdout
    return out.decode().splitlines()


def refusal(program, chart):
    """Number and place of a chart's refusal, or none where it is accepted.

    An accepted chart prints one line more than it has events; a refused one prints a single line, whatever follows it.
    """
    if len(run(program, chart, [0])) > 1:
        return None
    number, place = map(int, run(program, chart, [])[0].split())
    return number, place
