"""The numbers that the machine and its program have."""

GREATEST_POSITION = 1_099_511_627_775
GREATEST_TIME = GREATEST_POSITION - 1
MOST_EVENTS = 1_048_576
LINES = 4
EXTERNAL_LINES = 3

RAM = range(0, 0x0080_0000)
ROM = range(0x1FC0_0000, 0x1FC4_0000)

STACK_POINTER = 29  # registers, as compilers use them
RETURN_ADDRESS = 31
HI, LO = 32, 33  # after the numbers of the general registers

RESET_PC = 0xBFC0_0000

# The steps of a span: at their multiples the program looks up what happened and runs nothing.
SPAN = 65_536

# The most that one command asks for.
VISIT_STEPS = 1_048_576
TRACED = 64  # steps
JUMPS = 64
STORES = 32
FINDS = 64
PCS = 64
WORDS = 32
CONSOLE_BYTES = 256

COMMAND_BYTES = 256

# The program ends after this many reads of its input. A read has at most this many bytes.
READS = 1 << 20
READ_BYTES = 4096
