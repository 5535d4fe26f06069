// The C library's report on the processor. The native program for x86-64-v3 ends at its start if it lacks a feature of this level.
// Here it needs none of them: narrow.py drops the level, and clang compiles for WebAssembly. So every feature is reported as there.

struct features {
    unsigned processor[4], usable[4];
};

const struct features *__x86_get_cpuid_feature_leaf(unsigned leaf) {
    static const struct features all = {{~0u, ~0u, ~0u, ~0u}, {~0u, ~0u, ~0u, ~0u}};
    (void)leaf;
    return &all;
}
