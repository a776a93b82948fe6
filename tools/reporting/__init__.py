"""The parts of `report.py`, from the bottom up.

    program    the proved program: built, and called
    sharpen    the factor of each direction
    reports    the report of one model: its directions, their decimals, what is most urgent
    batch      many models at once
    changes    what differs between two reports
    words      figures, steps, claims and margins in words
    terminal, data, page    the report as text; as JSON and CSV; as a page of HTML
"""
