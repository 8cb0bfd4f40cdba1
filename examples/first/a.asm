; The first example: x0 is 5, and then it stays where it is.
movz x0, 5, 0
here:
b here
