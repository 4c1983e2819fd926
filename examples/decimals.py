"""Numbers of the examples: whole numbers of millionths."""
UNIT = 1_000_000


def decimal(number):
    """The shortest plain decimal of a number of millionths."""
    whole, rest = divmod(abs(number), UNIT)
    fraction = f"{rest:06d}".rstrip("0")
    return ("-" if number < 0 else "") + str(whole) + ("." + fraction if fraction else "")
