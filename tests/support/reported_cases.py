"""The number of cases that a test reports in its output."""
import re

# A count and what is counted, as in `12 rows`. `1 of 12 rows` is a part, and is not counted.
COUNT = re.compile(
    r"(?<!of )(?<![\d,.])(\d[\d,]*) (?:rows|cases|runs|imports|injected faults|blocks|passed)\b"
)


def reported_cases(output: str) -> int:
    """Returns the sum of the counts of cases in the output of a test."""
    return sum(int(count.replace(",", "")) for count in COUNT.findall(output))
