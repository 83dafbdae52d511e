"""Prints a makefile of 40 targets, each with a name of 60,000 bytes."""
names = [f"t{number:02d}" + "n" * 59_997 for number in range(40)]
print(".KEEP_STATE:")
for name in names:
    print(f"all: {name}\n{name}:\n\t@:")
