/* One rounding to nearest, ties to even, from f64 to f16, by gcc's own type. */
unsigned short f64_to_f16(double from);

unsigned short f64_to_f16(double from)
{
    union { _Float16 number; unsigned short bits; } to;
    to.number = (_Float16)from;
    return to.bits;
}
