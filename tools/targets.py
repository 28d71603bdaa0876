"""The processors that tools/cross makes the library for, and how its examples are built and run for each."""
import collections
import os
import platform
import re
import shutil
import subprocess
import tempfile

ROOT = os.path.dirname(os.path.dirname(os.path.abspath(__file__)))
EXAMPLES, INCLUDE = os.path.join(ROOT, "examples"), os.path.join(ROOT, "include")
HEADER = os.path.join(INCLUDE, "link_survey.h")
BARE_METAL = "self-test passed\ncase B: 27 rounds, unit 2 is a single point\n"
WARNINGS = ["-std=c99", "-Wall", "-Wextra", "-Wpedantic", "-Werror"]

# triple and words: for the kit's clang; compiler: a C compiler with the processor's C library; emulator: what runs its
# programs here; machine: the processor's number in an object file
Target = collections.namedtuple("Target", "name triple words compiler emulator machine")

# a processor without an operating system: the emulator has a whole board, and what a program says comes by semihosting
BARE = ["arm-none-eabi-gcc", "-mcpu=cortex-m4", "-mthumb", "-ffreestanding", "-nostdlib", "-O1", "-Wl,-z,noexecstack",
        "-T", os.path.join(EXAMPLES, "bare_metal.ld")]
BOARD = ["qemu-system-arm", "-M", "mps2-an386", "-nographic", "-monitor", "none", "-serial", "none", "-chardev",
         "stdio,id=out", "-semihosting-config", "enable=on,target=native,chardev=out", "-kernel"]

# this machine, where it is the one that rt makes the archive for
HOST = Target("x86_64-linux-gnu", "x86_64-unknown-linux-gnu", [], ["cc"], [], 62)

TARGETS = {target.name: target for target in [
    # -aarch64-load-store-renaming=false: as the kit's own clang is called for this processor
    Target("aarch64-linux-gnu", "aarch64-unknown-linux-gnu",
           ["-fPIC", "-march=armv8-a", "-mllvm", "-aarch64-load-store-renaming=false"],
           ["aarch64-linux-gnu-gcc", "-static"], ["qemu-aarch64"], 183),
    Target("armv7-linux-gnueabihf", "armv7-unknown-linux-gnueabihf", ["-fPIC"], ["arm-linux-gnueabihf-gcc", "-static"],
           ["qemu-arm"], 40),
    # -meabi gnu: memcpy and memset under their own names
    Target("thumbv7em-none-eabi", "thumbv7em-unknown-none-eabi", ["-meabi", "gnu", "-mfloat-abi=soft", "-mfpu=none"],
           [*BARE, "-mfloat-abi=soft"], BOARD, 40),
    Target("thumbv7em-none-eabihf", "thumbv7em-unknown-none-eabihf", ["-meabi", "gnu", "-mfpu=fpv4-sp-d16"],
           [*BARE, "-mfloat-abi=hard", "-mfpu=fpv4-sp-d16"], BOARD, 40),
    Target("riscv64-linux-gnu", "riscv64-unknown-linux-gnu", ["-fPIC", "-march=rv64gc", "-mabi=lp64d"],
           ["riscv64-linux-gnu-gcc", "-static"], ["qemu-riscv64"], 243),
]}


def archive(target):
    folder = ["crates", "survey_c", "out"] if target is HOST else ["target", "cross", target.name]
    return os.path.join(ROOT, *folder, "libsurvey_c.a")


def missing(target):
    """What is not here that a run for the target needs."""
    lacking = [command[0] for command in (target.compiler, target.emulator) if command and not shutil.which(command[0])]
    return lacking + (["a processor x86-64"] if target is HOST and platform.machine() != "x86_64" else [])


def bare(target):
    return "none" in target.triple


def build(target, folder, name, *sources):
    """Builds examples over the target's archive; the path of the program."""
    made = os.path.join(folder, name)
    start = ["bare_metal_start.c"] if bare(target) else []
    paths = [os.path.join(EXAMPLES, source) for source in [*sources, *start]]
    # the compiler's own helpers stand after the archive that needs them
    command = [*target.compiler, *WARNINGS, "-I" + INCLUDE, *paths, archive(target), "-lgcc", "-o", made]
    done = subprocess.run(command, capture_output=True, text=True, check=False)
    if done.returncode != 0:
        raise AssertionError(f"{' '.join(sources)} for {target.name}:\n{done.stderr}")
    return made


def ran(target, program, *arguments):
    """The exit status of a program, and what it printed."""
    command = [*target.emulator, program, *arguments]
    done = subprocess.run(command, stdin=subprocess.DEVNULL, capture_output=True, timeout=120, check=False)
    return done.returncode, done.stdout.decode()


def small_sites():
    with open(os.path.join(ROOT, "crates", "small_sites", "stdout"), encoding="utf-8") as file:
        return file.read()


def header():
    with open(HEADER, encoding="utf-8") as file:
        return file.read()


def functions():
    """The names that the header declares."""
    return set(re.findall(r"(?m)^uint32_t (link_survey_\w+)\(", header()))


def version():
    return int(re.search(r"(?m)^#define LINK_SURVEY_VERSION (\d+)$", header())[1])


def tried(target):
    """Runs the self-test and T-13's lines on the target; says so in one line, or why not."""
    lacking = missing(target)
    if lacking:
        return "not run: not here: " + ", ".join(lacking)
    with tempfile.TemporaryDirectory() as folder:
        main, passed = ("bare_metal.c", BARE_METAL) if bare(target) else ("self_test_main.c", "passed\n")
        tests = ran(target, build(target, folder, "self_test", main, "self_test.c"))
        lines = ran(target, build(target, folder, "acceptance", "acceptance.c"))
    where = "under " + target.emulator[0] if target.emulator else "on this machine"
    what = f"the self-test and T-13's 1,099 lines {where}"
    if tests != (0, passed) or lines != (0, small_sites()):
        raise AssertionError(f"{target.name}: NOT as expected: {what}")
    return f"{what}: as expected"
