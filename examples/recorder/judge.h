/* Histories of another queue, judged by `dashboard check`: all of them as they were, and some with one reply changed. */
#ifndef JUDGE_H
#define JUDGE_H

#include "../aosp/program.h"
#include "recorder.h"

#include <functional>
#include <map>
#include <random>
#include <sstream>
#include <vector>

/* A history of one queue as it is made: each post has a number, which is its `what` too, so that its dispatch tells it. What is
 * removed is counted by what was posted and has not come, not by the queue under test. */
struct History {
    recorder told;
    std::map<int, unsigned> waiting; // the handler of each post that has not come

    explicit History(unsigned looper) { recorder_open(&told, looper, false, 1); }
    int post(unsigned handler, int64_t when)
    {
        recorded_post it = {};
        it.when = static_cast<uint64_t>(when);
        it.handler = handler;
        it.what = static_cast<unsigned>(told.posts);
        int number = static_cast<int>(recorder_post(&told, 0, &it, true));
        waiting[number] = handler;
        return number;
    }
    void dispatched(int number, int64_t now)
    {
        waiting.erase(number);
        recorder_dispatch(&told, 0, static_cast<uint64_t>(now), static_cast<uint64_t>(number));
    }
    void removed(unsigned handler, int number)
    {
        auto at = waiting.find(number);
        bool was = at != waiting.end() && at->second == handler;
        recorder_remove(&told, 0, handler, ("what " + std::to_string(number) + " -").c_str(), was);
        if (was) {
            waiting.erase(at);
        }
    }
    void removed_all(unsigned handler)
    {
        uint64_t count = 0;
        for (auto at = waiting.begin(); at != waiting.end();) {
            bool is = at->second == handler;
            count += is;
            at = is ? waiting.erase(at) : std::next(at);
        }
        recorder_remove(&told, 0, handler, "all -", count);
    }
    /* The history's part of a trace. */
    std::string text()
    {
        char *all = nullptr;
        size_t size = 0;
        FILE *out = open_memstream(&all, &size);
        recorder_print(&told, out);
        fclose(out);
        std::string part(all, size);
        free(all);
        return part;
    }
};

inline std::string trace_of(const std::string &queues) { return "trace 1\n" + queues + "end\n"; }

/* The history with the reply of one entry changed, whose place it answers; -1 where it has no entry. */
inline int spoil(std::string &history, std::mt19937_64 &random)
{
    std::vector<std::string> lines;
    std::istringstream in(history);
    for (std::string line; std::getline(in, line);) {
        lines.push_back(line);
    }
    if (lines.size() < 2) {
        return -1;
    }
    int place = static_cast<int>(random() % (lines.size() - 1));
    std::string &line = lines[static_cast<size_t>(place) + 1];
    size_t last = line.rfind(' ') + 1;
    line = line.substr(0, last) + std::to_string(std::stoull(line.substr(last)) + 1);
    history.clear();
    for (const std::string &one : lines) {
        history += one + "\n";
    }
    return place;
}

/* Makes so many histories, has them judged at once, and so many with one reply changed, each alone. Whether all was as wanted. */
inline bool judge(const char *program, const char *whose, uint64_t count, uint64_t changed, const std::function<std::string(unsigned, std::mt19937_64 &)> &make)
{
    std::string all;
    std::vector<std::string> histories;
    std::mt19937_64 random(1);
    for (uint64_t i = 0; i < count; i++) {
        histories.push_back(make(static_cast<unsigned>(i), random));
        all += histories.back();
    }
    std::string verdict = run_program(program, "check", trace_of(all));
    uint64_t tried = 0, found = 0;
    for (uint64_t i = 0; i < count && tried < changed; i++) {
        std::string spoiled = histories[i];
        int place = spoil(spoiled, random);
        if (place >= 0) {
            std::string wanted = "illegal queue " + std::to_string(i) + " entry " + std::to_string(place) + "\n";
            tried++;
            found += run_program(program, "check", trace_of(spoiled)) == wanted;
        }
    }
    size_t entries = 0;
    for (char c : all) {
        entries += c == '\n';
    }
    printf("%s: %lu histories with %lu entries: %s  one reply changed in %lu of them, found at its entry in %lu\n", whose, count, entries - count,
           verdict.c_str(), tried, found);
    return verdict == "legal\n" && tried == found;
}

#endif
