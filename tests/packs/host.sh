# shellcheck shell=sh
# Writes the source in C of a program that stands for node or Python: sh host.sh FILE HOST ENTRY. HOST is how the names of
# the functions begin that FILE, a shared object, takes from its host, which here do nothing. The program loads the file that
# it is given, with all that it calls, and says whether it has the function ENTRY.
printf '#include <dlfcn.h>\n#include <stdio.h>\n'
nm -D --undefined-only "$1" | sed -n "s/^ *[Uw] \(${2}[A-Za-z0-9_]*\)$/void *\1(void) { return 0; }/p"
cat <<C
int main(int count, char **words) {
    void *loaded = dlopen(words[count - 1], RTLD_NOW | RTLD_LOCAL);
    if (!loaded) puts(dlerror());
    else puts(dlsym(loaded, "$3") ? "loaded" : "no $3");
    return 0;
}
C
