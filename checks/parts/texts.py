"""The files that most runs here are about: kernels, leap seconds, observations, and what must come of them.

What must be written was computed by hand, with the exact arithmetic that examples/TOUR.md shows on another kernel.
"""
from ends import TOP

LIMIT = 16_777_216  # bytes of a file
RECORDS = 100_000
TRIPLES = 50_000
PARTITIONS = 9_999
HEADER = "id,clock,time,delay\n"

SMALL = """KPL/SCLK
\\begindata
SCLK_KERNEL_ID = @2024-01-01
SCLK_DATA_TYPE_99 = 1
SCLK01_TIME_SYSTEM_99 = 2
SCLK01_N_FIELDS_99 = 2
SCLK01_MODULI_99 = (
4294967296 256
)
SCLK01_OFFSETS_99 = (
0 0
)
SCLK01_OUTPUT_DELIM_99 = 2
SCLK_PARTITION_START_99 = 0
SCLK_PARTITION_END_99 = 1099511627775
SCLK01_COEFFICIENTS_99 = (
0 0 1
)
\\begintext
"""
TWO_LIVES = SMALL.replace("START_99 = 0\n", "START_99 = (\n0 0\n)\n").replace(
    "END_99 = 1099511627775\n", "END_99 = (\n1000000 1099511627775\n)\n"
)

OLD = """KPL/SCLK

Clock kernel of spacecraft -99.

\\begindata

SCLK_KERNEL_ID           = ( @2000-01-02/12:00 )

SCLK_DATA_TYPE_99        = ( 1 )
SCLK01_TIME_SYSTEM_99    = ( 2 )
SCLK01_N_FIELDS_99       = ( 2 )
SCLK01_MODULI_99         = ( 4294967296  256 )
SCLK01_OFFSETS_99        = ( 0  0 )
SCLK01_OUTPUT_DELIM_99   = ( 1 )

SCLK_PARTITION_START_99  = ( 0.0000000000000E+00 )
SCLK_PARTITION_END_99    = ( 1.0995116277750E+12 )

SCLK01_COEFFICIENTS_99   = (

    0.0000000000000E+00    0.0000000000000E+00    1.0000000000000E+00
    2.2118400000000E+07    8.6400000100000E+04    1.0000000010000E+00

)

\\begintext
""".replace("\n", "\r\n")
PASS = HEADER + (
    "d2,cuc:1/2d0002a30000,cds:413bee0292392400c8,1500000000\n"
    "d3,1/259200.000,utc:2000-004T11:58:55.821Z,0\n"
)
PUBLISHED = """KPL/SCLK

Clock kernel of spacecraft -99.

\\begindata
SCLK_KERNEL_ID = @2000-01-02/12:00
SCLK_DATA_TYPE_99 = 1
SCLK01_TIME_SYSTEM_99 = 2
SCLK01_N_FIELDS_99 = 2
SCLK01_MODULI_99 = (
4294967296 256
)
SCLK01_OFFSETS_99 = (
0 0
)
SCLK01_OUTPUT_DELIM_99 = 1
SCLK_PARTITION_START_99 = 0
SCLK_PARTITION_END_99 = 1099511627775
SCLK01_COEFFICIENTS_99 = (
0 0 1
22118400 86400.0001 1.000000001
)
\\begintext
\\begindata
SCLK01_COEFFICIENTS_99 += (
44236800 172800.0001864 1.000000055713
)
\\begintext
residuals;2
d2;1/0000172800.000;172800.000200000000;172800.000186400000;13600000;3;new;fixed
d3;1/0000259200.000;259200.005000000000;259200.005000003200;-3200;3;new;last
""".encode()

LEAP = (TOP / "examples" / "leapseconds.tls").read_bytes()

PUBLISH = "publish --leap=l --kernel=k --obs=o --sc=99"
AUDIT = "audit --leap=l --kernel=k --obs=o --sc=99 --new=n"
FILES = dict(l=LEAP, k=OLD, o=PASS, n=PUBLISHED)
