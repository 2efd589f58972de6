/* AOSP's native Looper and `dashboard run` on descriptors: registering (addFd, `watch`), removing (removeFd, `watch` of no event),
 * and events (bytes written into a pipe, `event`), whose callback reads the pipe and stays (answers 1) or goes (answers 0).
 *
 *     descriptors PROGRAM [--seed S] [--count N] [--plant P]
 *
 * A block has one command, since a native looper tells events in the order of epoll and the program in the order in which they are handed in.
 * Input alone is compared: errors and hang-ups come from the kernel in AOSP, from the script here. A pipe whose descriptor nobody watches is
 * drained, since a native looper would tell what is still in it once it is watched, and the program has no such memory. Messages are posted
 * between. Compared: the lines `event` in order, and the lines `dispatch` of the messages. The plant 1: no listener goes. */
#include "program.h"
#include "virtual_time.h"

#include <cstring>
#include <random>
#include <sstream>
#include <vector>

using namespace android;

struct Step { int64_t time; char kind; int fd; int answer; int64_t delay; };
static int plant = 0;

static std::string text(const std::vector<Step> &steps)
{
    std::ostringstream out;
    out << "dashboard 1\nloopers 1\nthreads 1\nhandler 0 0\nvsync 16666667\n";
    int what = 0;
    for (const Step &s : steps) {
        out << "at " << s.time << "\n";
        if (s.kind == 'w') out << "0 watch 0 " << s.fd << " 1 " << (plant == 1 ? 1 : s.answer) << "\n";
        if (s.kind == 'r') out << "0 watch 0 " << s.fd << " 0 0\n";
        if (s.kind == 'e') out << "0 event 0 " << s.fd << " 1\n";
        if (s.kind == 'p') out << "0 post 0 " << what++ << " " << s.delay << "\n";
    }
    out << "end " << (steps.empty() ? 1 : steps.back().time + 20) << "\n";
    return out.str();
}

struct Run {
    sp<Looper> looper = new Looper(false);
    std::vector<std::string> lines;
    int pipes[3][2];
    int answers[3] = {0, 0, 0};
    bool told = false;
    struct Handler : MessageHandler {
        Run *run;
        explicit Handler(Run *r) : run(r) {}
        void handleMessage(const Message &message) override
        {
            std::string what = std::to_string(message.what);
            run->lines.push_back(std::to_string(virtual_time::now / 1000000) + " dispatch " + what + " 0 " + what);
        }
    };
    struct Callback : LooperCallback {
        Run *run;
        int number, answer;
        Callback(Run *r, int n, int a) : run(r), number(n), answer(a) {}
        int handleEvent(int fd, int events, void *) override
        {
            char byte;
            while (read(fd, &byte, 1) == 1) {
            }
            run->lines.push_back("event " + std::to_string(number) + " " + std::to_string(events));
            return answer;
        }
    };
    Run()
    {
        for (auto &pair : pipes) {
            must(pipe2(pair, O_NONBLOCK | O_CLOEXEC) == 0, "no pipe");
        }
    }
    ~Run()
    {
        for (auto &pair : pipes) {
            looper->removeFd(pair[0]);
            close(pair[0]);
            close(pair[1]);
        }
    }
    void until(int64_t moment)
    {
        while (virtual_time::now / 1000000 < moment - 1) {
            looper->pollOnce(static_cast<int>(moment - 1 - virtual_time::now / 1000000));
        }
        virtual_time::now = moment * 1000000;
    }
    void run(const std::vector<Step> &steps)
    {
        virtual_time::now = 0;
        virtual_time::passes = true;
        looper->pollOnce(0);
        sp<Handler> handler = new Handler(this);
        int what = 0;
        for (const Step &s : steps) {
            until(s.time);
            if (s.kind == 'w') {
                sp<Callback> callback = new Callback(this, s.fd, s.answer);
                must(looper->addFd(pipes[s.fd][0], 0, Looper::EVENT_INPUT, callback, nullptr) == 1, "addFd failed");
            }
            if (s.kind == 'r') looper->removeFd(pipes[s.fd][0]);
            if (s.kind == 'e') must(write(pipes[s.fd][1], "x", 1) == 1, "a pipe is full");
            if (s.kind == 'p') looper->sendMessageDelayed(s.delay * 1000000, handler, Message(what++));
            looper->pollOnce(0);
            looper->pollOnce(0);
            char byte;
            while (read(pipes[s.fd][0], &byte, 1) == 1) {
            }
        }
        until((steps.empty() ? 1 : steps.back().time + 20));
        looper->pollOnce(0);
    }
};

static void read_report(const std::string &report, std::vector<std::string> &events, std::vector<std::string> &dispatches)
{
    std::istringstream lines(report);
    std::string line;
    while (std::getline(lines, line)) {
        if (line.rfind("event ", 0) == 0) {
            events.push_back(line);
        } else if (line.find(" dispatch ") != std::string::npos) {
            dispatches.push_back(line);
        }
    }
}

static std::string differs(const char *program, const std::vector<Step> &steps, uint64_t *compared)
{
    Run aosp;
    aosp.run(steps);
    std::vector<std::string> events, dispatches, theirs_events, theirs_dispatches;
    for (const std::string &line : aosp.lines) {
        (line[0] == 'e' ? events : dispatches).push_back(line);
    }
    std::string report = run_program(program, "run", text(steps));
    if (report.rfind("report 1\n", 0) != 0) {
        return "the program failed: " + report;
    }
    read_report(report, theirs_events, theirs_dispatches);
    auto joined = [](const std::vector<std::string> &all) {
        std::string one;
        for (const std::string &line : all) one += line + "; ";
        return one;
    };
    if (events != theirs_events) return "events: AOSP " + joined(events) + " ours " + joined(theirs_events);
    if (dispatches != theirs_dispatches) return "dispatches: AOSP " + joined(dispatches) + " ours " + joined(theirs_dispatches);
    if (compared != nullptr) {
        compared[0] += events.size();
        compared[1] += dispatches.size();
    }
    return "";
}

int main(int words, char **word)
{
    uint64_t seed = 1, count = 1000, faults = 0, compared[2] = {0, 0};
    must(words >= 2, "usage: descriptors PROGRAM [--seed S] [--count N] [--plant P]");
    for (int i = 2; i + 1 < words; i += 2) {
        if (strcmp(word[i], "--seed") == 0) seed = strtoull(word[i + 1], nullptr, 10);
        if (strcmp(word[i], "--count") == 0) count = strtoull(word[i + 1], nullptr, 10);
        if (strcmp(word[i], "--plant") == 0) plant = atoi(word[i + 1]);
    }
    for (uint64_t i = 0; i < count; i++) {
        std::mt19937_64 random(seed * 1000003 + i);
        std::vector<Step> steps;
        int64_t time = 1;
        for (uint64_t k = 1 + random() % 25; k > 0; k--) {
            time += 1 + static_cast<int64_t>(random() % 4);
            uint64_t pick = random() % 10;
            char kind = pick < 3 ? 'w' : pick < 4 ? 'r' : pick < 8 ? 'e' : 'p';
            int fd = static_cast<int>(random() % 3), answer = random() % 3 != 0;
            steps.push_back({time, kind, fd, answer, static_cast<int64_t>(random() % 8)});
        }
        if (!differs(word[1], steps, compared).empty()) {
            if (faults++ == 0) {
                if (plant != 0) {
                    break; // it was seen
                }
                for (bool again = true; again;) {
                    again = false;
                    for (size_t k = 0; k < steps.size(); k++) {
                        std::vector<Step> less = steps;
                        less.erase(less.begin() + static_cast<long>(k));
                        if (!differs(word[1], less, nullptr).empty()) {
                            steps = less;
                            again = true;
                            k--;
                        }
                    }
                }
                std::string told = differs(word[1], steps, nullptr);
                printf("first difference, script %lu, smallest:\n%s  %s\n", i, text(steps).c_str(), told.c_str());
            }
        }
    }
    printf("descriptors, seed %lu plant %d: %lu scripts, %lu differ; compared %lu events, %lu dispatches\n", seed, plant, count, faults, compared[0], compared[1]);
    return faults > 0;
}
