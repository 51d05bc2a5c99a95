"""Tools that show an output: pictures, a timeline, a log, a comparison, and causes of verdicts.

They stand beside the proved program. They read its output, and claim nothing that it does not
print.
"""
