/* Runs the program `dashboard`: one word, a text on its standard input, and what it writes. */
#ifndef PROGRAM_H
#define PROGRAM_H

#include <cstdio>
#include <cstdlib>
#include <fcntl.h>
#include <spawn.h>
#include <string>
#include <sys/mman.h>
#include <sys/wait.h>
#include <unistd.h>

extern char **environ;

inline void must(bool holds, const char *what)
{
    if (!holds) {
        fprintf(stderr, "%s\n", what);
        exit(2);
    }
}

/* What the program writes of the text, or `failed` and its status. */
inline std::string run_program(const char *program, const char *word, const std::string &text)
{
    int out[2], in = memfd_create("text", MFD_CLOEXEC);
    must(in >= 0 && pipe2(out, O_CLOEXEC) == 0, "no pipe");
    must(write(in, text.data(), text.size()) == static_cast<ssize_t>(text.size()) && lseek(in, 0, SEEK_SET) == 0, "the text was not written");
    posix_spawn_file_actions_t actions;
    posix_spawn_file_actions_init(&actions);
    posix_spawn_file_actions_adddup2(&actions, in, 0);
    posix_spawn_file_actions_adddup2(&actions, out[1], 1);
    char *words[] = {const_cast<char *>(program), const_cast<char *>(word), nullptr};
    pid_t child;
    must(posix_spawn(&child, program, &actions, nullptr, words, environ) == 0, "the program does not start");
    posix_spawn_file_actions_destroy(&actions);
    close(in);
    close(out[1]);
    std::string got;
    char buffer[65536];
    for (ssize_t some; (some = read(out[0], buffer, sizeof buffer)) > 0;) {
        got.append(buffer, static_cast<size_t>(some));
    }
    close(out[0]);
    int status;
    waitpid(child, &status, 0);
    return WIFEXITED(status) && WEXITSTATUS(status) == 0 ? got : "failed " + std::to_string(status);
}

#endif
