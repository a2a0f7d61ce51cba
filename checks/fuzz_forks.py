"""Runs of one program, each in a process that is forked once the program is loaded, for checks/fuzz: a library before that of the system takes
the words of each run. So a run costs no start of a program. Without a C compiler each run is a start."""
import os, shutil, signal, struct, subprocess

LIBRARY = r'''
#define _GNU_SOURCE
#include <dlfcn.h>
#include <stdint.h>
#include <stdlib.h>
#include <string.h>
#include <sys/wait.h>
#include <unistd.h>

typedef int (*program_main)(int, char **, char **);
typedef int (*starter)(program_main, int, char **, void (*)(void), void (*)(void), void (*)(void), void *);

static void take(char *into, size_t size) {
    for (ssize_t got; size; into += got, size -= got)
        if ((got = read(ASKED, into, size)) <= 0) _exit(0);
}

static void tell(int32_t number) {
    if (write(TOLD, &number, 4) != 4) _exit(1);
}

int __libc_start_main(program_main main, int count, char **words, void (*init)(void), void (*end)(void), void (*linked)(void), void *stack) {
    starter next = (starter)dlsym(RTLD_NEXT, "__libc_start_main");
    for (;;) {
        uint32_t size;
        static char *taken[64];
        int status, at = 1;
        take((char *)&size, 4);
        char *text = malloc(size + 1);
        take(text, size);
        text[size] = 0;
        pid_t process = fork();
        if (!process) {
            close(ASKED);
            close(TOLD);
            taken[0] = words[0];
            for (char *word = text; word < text + size && at < 63; word += strlen(word) + 1) taken[at++] = word;
            taken[at] = NULL;
            return next(main, at, taken, init, end, linked, stack);
        }
        free(text);
        tell(process);
        waitpid(process, &status, 0);
        tell(status);
    }
}
'''
ASKED, TOLD = 198, 199

def library_in(folder):
    """The library, in this folder; none without a compiler."""
    compiler = next((found for found in map(shutil.which, ('cc', 'gcc', 'clang')) if found), None)
    if not compiler:
        return None
    path = folder + '/forks.so'
    command = [compiler, '-shared', '-fPIC', '-O1', '-w', '-DASKED=%d' % ASKED, '-DTOLD=%d' % TOLD, '-x', 'c', '-', '-o', path]
    subprocess.run(command, input=LIBRARY.encode(), check=True)
    return path

def too_long(*_):
    raise TimeoutError

class Program:
    """A program whose runs read and write these three files from their begins."""
    def __init__(self, path, streams, folder):
        self.path, self.streams, self.asks = path, streams, None
        signal.signal(signal.SIGALRM, too_long)
        library = library_in(folder)
        if library:
            asked, self.asks = os.pipe()
            self.told, tells = os.pipe()
            actions = self.actions() + [(os.POSIX_SPAWN_DUP2, asked, ASKED), (os.POSIX_SPAWN_DUP2, tells, TOLD)]
            os.posix_spawn(path, [path], {**os.environ, 'LD_PRELOAD': library}, file_actions=actions)
            os.close(asked)
            os.close(tells)

    def actions(self):
        return [(os.POSIX_SPAWN_DUP2, stream, number) for number, stream in enumerate(self.streams)]

    def run(self, words, text, seconds):
        """Its status, its output and what it wrote on standard error; none where it has not ended in time."""
        for stream in self.streams:
            os.ftruncate(stream, 0)
            os.lseek(stream, 0, os.SEEK_SET)
        os.pwrite(self.streams[0], text, 0)
        process = None
        signal.alarm(seconds)
        try:
            if self.asks is None:
                process = os.posix_spawn(self.path, [self.path, *words], os.environ, file_actions=self.actions())
                status = os.waitpid(process, 0)[1]
            else:
                asked = b''.join(word.encode() + b'\0' for word in words)
                os.write(self.asks, struct.pack('=I', len(asked)) + asked)
                process = self.number()
                status = self.number()
        except TimeoutError:
            os.kill(process, signal.SIGKILL)
            if self.asks is None:
                os.waitpid(process, 0)
            else:
                self.number()
            return None
        finally:
            signal.alarm(0)
        output, errors = (os.pread(stream, os.fstat(stream).st_size, 0) for stream in self.streams[1:])
        return os.waitstatus_to_exitcode(status), output, errors

    def number(self):
        return struct.unpack('=i', os.read(self.told, 4))[0]
