"""python3 wip/seed.py NAME.., at the top of a checkout: gives it the libraries of each crate NAME and of those below it that `rt ci` kept on this
machine, so that `rt check` of NAME builds none anew. No verdict rests on it: `rt ci` and the gate take no such library."""
import os, shutil, sys, importlib.machinery, importlib.util
sys.dont_write_bytecode = True
BIN = "/opt/rattle/bin"
def load(name, file):
    loader = importlib.machinery.SourceFileLoader(name, file)
    spec = importlib.util.spec_from_loader(name, loader)
    made = importlib.util.module_from_spec(spec)
    sys.modules[name] = made
    loader.exec_module(made)
    return made
rtlib = load("rtlib", f"{BIN}/rtlib.py")
sys.path.insert(0, BIN)
rt = load("rt_ci", f"{BIN}/rt")
ROOT = os.getcwd()
rt.Crate.allowed = rt.handles_of(ROOT)
def main(names):
    made = {}
    for name in names:
        crate = rtlib.Crate(f"{ROOT}/crates/{name}", ROOT, made)
        line = [*crate.below(), crate]
        kept = rt.Kept(line)
        missing = []
        for dep in line:
            if dep.is_program:
                continue
            if any(d.name in missing for d in dep.deps):
                missing.append(dep.name)
                continue
            key = kept.key(dep)
            if not os.path.isdir(kept.place(dep, False, key)):
                missing.append(dep.name)
                continue
            if not dep.is_built():
                shutil.rmtree(f"{dep.folder}/out/rlib", ignore_errors=True)
                os.makedirs(f"{dep.folder}/out/rlib")
                assert kept.give(dep, False, key), dep.name
                with open(f"{dep.folder}/out/rlib/stamp", "w") as f:
                    f.write(dep.stamp())
                print("seeded", dep.name)
            kept.is_built(dep)
        print(name, "missing:", *missing)
main(sys.argv[1:])
