"""Runs a program over an input, and says how long it took and how much memory it had at most."""
import pathlib
import subprocess
import tempfile
import time


def crate_program(crate, name):
    return pathlib.Path(__file__).resolve().parent.parent / "crates" / crate / "out" / name


def measured(program, words, octets):
    """What the program wrote, the seconds it took, and the greatest resident size that was seen, in KiB."""
    with tempfile.TemporaryFile() as source, tempfile.TemporaryFile() as output:
        source.write(octets)
        source.seek(0)
        begin = time.perf_counter()
        process = subprocess.Popen([program, *words], stdin=source, stdout=output)
        peak = peak_of(process)
        seconds = time.perf_counter() - begin
        if process.returncode != 0:
            raise SystemExit(f"{program} ended with status {process.returncode}")
        output.seek(0)
        return output.read().decode(), seconds, peak


def peak_of(process):
    peak = 0
    while process.poll() is None:
        try:
            status = pathlib.Path(f"/proc/{process.pid}/status").read_text()
        except OSError:
            break
        peak = max([peak] + [int(line.split()[1]) for line in status.splitlines() if line.startswith("VmHWM")])
        time.sleep(0.002)
    return peak
