"""What the tests of storms share: the program, the checker and the plain replay, each run over rows."""
import subprocess

TIMEOUT = 60


class Skipped(Exception):
    pass


def wants(given, wanted, of=""):
    if given != wanted:
        lines, others = given.splitlines(), wanted.splitlines()
        place = next((place for place, (line, other) in enumerate(zip(lines, others)) if line != other), min(len(lines), len(others)))
        raise AssertionError(f"{of}line {place + 1}: wanted {others[place : place + 1]}, given {lines[place : place + 1]}")


class Tools:
    def __init__(self, program, checker, native, rows_file):
        self.program = program
        self.checker = checker
        self.native = native
        self.rows_file = rows_file

    def checked(self, lanes, rows, output):
        """Whether the checker allows the output, and what it says."""
        self.rows_file.write_bytes(rows)
        words = [self.checker, str(lanes), self.rows_file]
        ran = subprocess.run(words, input=output, capture_output=True, timeout=TIMEOUT)
        if ran.returncode not in (0, 1) or ran.stderr:
            raise AssertionError(f"the checker ended with status {ran.returncode}: {ran.stderr.decode()}")
        return ran.returncode == 0, ran.stdout.decode().strip()

    def allowed(self, lanes, rows, output, of=""):
        """The checker's figures of an output that it has to allow."""
        is_allowed, said = self.checked(lanes, rows, output)
        if not is_allowed:
            raise AssertionError(f"{of}{said}")
        words = said.split()[1:]
        return dict(zip(words[::2], map(int, words[1::2])))

    def refused(self, lanes, rows, output, of=""):
        is_allowed, said = self.checked(lanes, rows, output)
        if is_allowed:
            raise AssertionError(f"{of}the changed output is allowed")
        return said

    def simulated(self, seed, lanes, rows):
        self.rows_file.write_bytes(rows)
        words = [self.checker, "--simulate", str(seed), str(lanes), self.rows_file]
        return subprocess.run(words, stdout=subprocess.PIPE, check=True, timeout=TIMEOUT).stdout

    def replayed(self, rows):
        """What the plain native program prints."""
        return subprocess.run([self.native], input=rows, stdout=subprocess.PIPE, check=True, timeout=TIMEOUT).stdout

    def storm(self, lanes, rows):
        return self.printed("storm", rows, "--lanes", str(lanes))

    def printed(self, mode, rows, *words, status=0):
        """What the program prints."""
        ran = subprocess.run([self.program, mode, *words], input=rows, capture_output=True, timeout=TIMEOUT)
        if (ran.returncode, ran.stderr) != (status, b""):
            raise AssertionError(f"{mode} ended with status {ran.returncode}: {(ran.stderr or ran.stdout[:200]).decode()}")
        return ran.stdout
