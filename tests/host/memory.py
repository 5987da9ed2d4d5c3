#!/usr/bin/env python3
"""memory.py PROGRAM WORK EACH: refuses single growths of the program's memory, the first, the second and so on, EACH of each
command (0: all of them), and tells with what it ended and what was left. Needs cc and an LD_PRELOAD that works."""
import mmap
import os
import shutil
import socket
import struct
import subprocess
import sys
import time

PROGRAM, WORK, EACH = sys.argv[1], sys.argv[2], int(sys.argv[3])

# Counts the growths that the program itself asks for, not those inside of the C library, and refuses one of them.
SHIM = r"""
#define _GNU_SOURCE
#include <dlfcn.h>
#include <errno.h>
#include <fcntl.h>
#include <link.h>
#include <stdlib.h>
#include <sys/mman.h>
static void *(*real_malloc)(size_t), *(*real_realloc)(void *, size_t);
static unsigned long from, to, *count, refused;
static int first(struct dl_phdr_info *info, size_t size, void *data) {
    for (int i = 0; i < info->dlpi_phnum; i++) {
        const ElfW(Phdr) *p = &info->dlpi_phdr[i];
        unsigned long at = info->dlpi_addr + p->p_vaddr;
        if (p->p_type == PT_LOAD && (p->p_flags & PF_X)) { from = at; to = at + p->p_memsz; }
    }
    return 1;
}
__attribute__((constructor)) static void begin(void) {
    const char *file = getenv("GROWTHS_IN"), *nth = getenv("GROWTH_REFUSED");
    real_malloc = dlsym(RTLD_NEXT, "malloc");
    real_realloc = dlsym(RTLD_NEXT, "realloc");
    refused = nth ? strtoul(nth, 0, 10) : 0;
    int fd = file ? open(file, O_RDWR) : -1;
    if (fd >= 0) count = mmap(0, 8, PROT_READ | PROT_WRITE, MAP_SHARED, fd, 0);
    dl_iterate_phdr(first, 0);
    unsetenv("LD_PRELOAD");
    unsetenv("GROWTHS_IN");
    unsetenv("GROWTH_REFUSED");
}
static int refuses(void *caller) {
    unsigned long at = (unsigned long)caller;
    if (!count || at < from || at >= to || ++*count != refused) return 0;
    errno = ENOMEM;
    return 1;
}
void *malloc(size_t size) { return refuses(__builtin_return_address(0)) ? 0 : real_malloc ? real_malloc(size) : 0; }
void *realloc(void *old, size_t size) { return refuses(__builtin_return_address(0)) ? 0 : real_realloc ? real_realloc(old, size) : 0; }
"""

checks = failures = 0


def check(name, good, what=""):
    global checks, failures
    checks += 1
    if not good:
        failures += 1
        print(f"memory.py: FAILED: {name}: {what}", flush=True)


def run(data, words, refused=0, meanwhile=lambda process: None):
    """Status, output, error output, growths, and what came of what is done meanwhile."""
    with open(f"{WORK}/count", "w+b") as file:
        file.write(struct.pack("Q", 0))
        file.flush()
        env = {"RKT_DIR": data, "PATH": os.environ["PATH"], "LD_PRELOAD": f"{WORK}/shim.so", "GROWTHS_IN": f"{WORK}/count"}
        env |= {"GROWTH_REFUSED": str(refused)} if refused else {}
        process = subprocess.Popen([PROGRAM, *words], env=env, cwd=WORK, stdin=subprocess.DEVNULL, stdout=subprocess.PIPE, stderr=subprocess.PIPE)
        came = meanwhile(process)
        out, err = process.communicate(timeout=60)
        with mmap.mmap(file.fileno(), 8) as count:
            return process.returncode, out, err, struct.unpack("Q", count[:8])[0], came


def plain(data, *words):
    ran = subprocess.run([PROGRAM, *words], env={"RKT_DIR": data}, cwd=WORK, stdin=subprocess.DEVNULL, capture_output=True, text=True)
    return ran.returncode, ran.stdout


def bundle(name, letter, more="", files={}):
    os.makedirs(f"{WORK}/{name}/rootfs")
    for path, text in files.items():
        os.makedirs(os.path.dirname(f"{WORK}/{name}/rootfs/{path}"), exist_ok=True)
        with open(f"{WORK}/{name}/rootfs/{path}", "w") as it:
            it.write(text)
        os.chmod(f"{WORK}/{name}/rootfs/{path}", 0o755)
    with open(f"{WORK}/{name}/manifest", "w") as it:
        it.write(f'{{"acKind":"ImageManifest","acVersion":"0.8.0","name":"example.com/{name}"{more}}}')
    with open(f"{WORK}/{name}/id", "w") as it:
        it.write(f"sha512-{letter * 128}\n")


def standing(data):
    found = {}
    for area in ("incoming", "removed"):
        for at, folders, _ in os.walk(data):
            if os.path.basename(at) == area:
                found[area] = sorted(folders)
                break
    return found


def world():
    app = ',"app":{"exec":["/bin/run"],"user":"0","group":"0"}'
    base = ',"dependencies":[{"imageName":"example.com/base"}]'
    bundle("base", "a", "", {"bin/abc": "abc", "etc/motd": "abc"})
    bundle("worker", "c", app + base, {"bin/run": "#!/bin/abc\n"})
    bundle("other", "d", "", {"etc/motd": "abc"})
    for name in ("base", "worker"):
        check(f"import {name}", plain(f"{WORK}/data", "image", "import", f"{WORK}/{name}")[0] == 0)
    status, pod = plain(f"{WORK}/data", "prepare", "example.com/worker")
    check("prepare", status == 0)
    return pod.strip()


def commands(pod):
    return {
        "status": ["status", pod],
        "list": ["list"],
        "cat-manifest": ["cat-manifest", pod],
        "validate": ["validate", f"{WORK}/worker/manifest"],
        "prepare": ["prepare", "example.com/worker"],
        "run-prepared": ["run-prepared", pod],
        "run": ["run", "example.com/worker"],
        "rm": ["rm", pod],
        "gc": ["gc", "--grace-period=0", "--expire-prepared=0"],
        "image list": ["image", "list"],
        "image import": ["image", "import", f"{WORK}/other"],
        "image rm": ["image", "rm", f"sha512-{'c' * 64}"],
        "image gc": ["image", "gc"],
    }


def swept(name, data, images):
    """One sweep of pods and one of images leave no pod, and nothing in incoming or removed; and no image is lost."""
    check(name, plain(data, "gc", "--grace-period=0", "--expire-prepared=0")[0] == 0, "gc")
    check(name, plain(data, "image", "gc")[0] == 0, "image gc")
    check(name, plain(data, "list") == (0, ""), "a pod is left")
    check(name, not any(standing(data).values()), f"left: {standing(data)}")
    status, lines = plain(data, "image", "list")
    listed = {line.split(" ")[0] for line in lines.splitlines()}
    check(name, status == 0 and images <= listed, f"images: {lines}")


def trials(name, words):
    fresh = lambda: (shutil.rmtree(f"{WORK}/trial", ignore_errors=True), shutil.copytree(f"{WORK}/data", f"{WORK}/trial", symlinks=True))
    fresh()
    wanted, text, _, growths, _ = run(f"{WORK}/trial", words)
    step = max(1, -(-growths // EACH)) if EACH else 1
    ended = {}
    for nth in range(1, growths + 1, step):
        fresh()
        status, out, err, asked, _ = run(f"{WORK}/trial", words, nth)
        what = f"{name}, growth {nth} of {growths}"
        check(what, status in (14, wanted), f"status {status}, {err[-200:]}")
        check(what, asked >= nth, "it wasn't asked for")
        check(what, status != 14 or text.startswith(out) or name in ("prepare", "run"), f"it printed {out[-200:]}")
        images = {f"sha512-{'a' * 64}"} | (set() if name == "image rm" else {f"sha512-{'c' * 64}"})
        swept(what, f"{WORK}/trial", images)
        ended[status] = ended.get(status, 0) + 1
    print(f"memory.py: {name}: {growths} growths, {sum(ended.values())} refused one by one: " + ", ".join(f"{n} with {it}" for it, n in sorted(ended.items())), flush=True)


def free_port():
    with socket.socket() as it:
        it.bind(("127.0.0.1", 0))
        return it.getsockname()[1]


def asking(port, path):
    """Asks the service for the path once it listens, and gives what was written, which is nothing where it ended before."""
    request = f"GET {path} HTTP/1.1\r\nHost: x\r\nMetadata-Flavor: AppContainer\r\n\r\n".encode()

    def ask(process):
        said = b""
        while process.poll() is None:
            try:
                link = socket.create_connection(("127.0.0.1", port), timeout=20)
            except OSError:
                time.sleep(0.002)
                continue
            with link:
                try:
                    link.sendall(request)
                    while part := link.recv(65536):
                        said += part
                except OSError:
                    pass
            break
        return said

    return ask


def service_trials():
    """The metadata service with one connection, beside a pod that runs: it ends with 14 and a beginning of the reply, or with all of it."""
    data, going = f"{WORK}/running", f"{WORK}/going"
    open(going, "w").close()
    waits = f"#!/bin/sh\nwhile [ -e {going} ]; do /bin/sleep 0.1; done\n"
    bundle("waiter", "e", ',"app":{"exec":["/bin/wait"],"user":"0","group":"0"}', {"bin/wait": waits})
    check("import waiter", plain(data, "image", "import", f"{WORK}/waiter")[0] == 0)
    status, pod = plain(data, "prepare", "example.com/waiter")
    pod = pod.strip()
    runner = subprocess.Popen([PROGRAM, "run-prepared", pod], env={"RKT_DIR": data}, cwd=WORK, stdin=subprocess.DEVNULL, stdout=subprocess.DEVNULL)
    token = f"{data}/pods/run/{pod}/token"
    while runner.poll() is None and not os.path.exists(token):
        time.sleep(0.01)
    with open(token) as it:
        path = f"/{it.read().strip()}/acMetadata/v1/pod/uuid"
    serve = lambda port, nth=0: run(data, ["metadata-service", f"127.0.0.1:{port}", "1"], nth, asking(port, path))
    status, _, _, growths, whole = serve(free_port())
    check("metadata-service", status == 0 and whole.endswith(pod.encode()), f"{status}, {whole}")
    step = max(1, -(-growths // EACH)) if EACH else 1
    ended = {}
    for nth in range(1, growths + 1, step):
        status, _, err, asked, said = serve(free_port(), nth)
        what = f"metadata-service, growth {nth} of {growths}"
        check(what, status in (14, 0), f"status {status}, {err[-200:]}")
        check(what, asked >= nth, "it wasn't asked for")
        check(what, said == whole if status == 0 else whole.startswith(said), f"it wrote {said[-200:]}")
        check(what, plain(data, "status", pod)[1].startswith("state=running"), "the pod doesn't run any more")
        ended[status] = ended.get(status, 0) + 1
    print(f"memory.py: metadata-service: {growths} growths, {sum(ended.values())} refused one by one: " + ", ".join(f"{n} with {it}" for it, n in sorted(ended.items())), flush=True)
    os.remove(going)
    check("the pod beside the service", runner.wait(60) == 0)
    swept("the pod beside the service", data, {f"sha512-{'e' * 64}"})


os.makedirs(WORK)
with open(f"{WORK}/shim.c", "w") as it:
    it.write(SHIM)
subprocess.run(["cc", "-O1", "-shared", "-fPIC", "-o", f"{WORK}/shim.so", f"{WORK}/shim.c", "-ldl"], check=True)
POD = world()
for NAME, WORDS in commands(POD).items():
    trials(NAME, WORDS)
service_trials()
STATUS, OUT, _, GROWTHS, _ = run(f"{WORK}/demo", ["demo", "100"], 5000)
check("demo 100 whose 5,000th growth is refused", (STATUS, OUT) == (14, b"") and GROWTHS >= 5000, f"{STATUS}, {OUT}, {GROWTHS} growths")
print(f"memory.py: {checks} checks, {failures} failed")
