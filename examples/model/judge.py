"""What becomes of bytes that are given as an image, up to where it is run."""
from image import Bad, LONGEST, decode
from verify import verify


def judged(data):
    """The image of the bytes, and no line; or none, and the line with which psyc refuses it before anything else is looked at."""
    if len(data) > LONGEST:
        return None, f"limit image {LONGEST}"
    try:
        image = decode(data)
    except Bad as bad:
        return None, f"refused image {bad.place}"
    fault = verify(image)
    return (None, "refused verify {} at {}".format(*fault)) if fault else (image, None)
