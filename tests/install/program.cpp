// Every entry, from C++: prints what program.c prints.
#include <burrbeech.h>

#include <algorithm>
#include <fstream>
#include <iostream>
#include <iterator>
#include <string>
#include <vector>

typedef std::vector<uint8_t> Bytes;

static Bytes read_sheet(const std::string &path)
{
    std::ifstream file(path.c_str(), std::ios::binary);
    return Bytes(std::istreambuf_iterator<char>(file), std::istreambuf_iterator<char>());
}

static void print_check(const std::string &name, const Bytes &sheet)
{
    Bytes times(BURRBEECH_TIMES_BYTES);
    uint32_t answer = burrbeech_check_sheet(sheet.data(), sheet.size(), times.data(), times.size());
    std::cout << name << " checked: ";
    if (burrbeech_check_refusal(answer) != 0) {
        std::cout << "refused " << burrbeech_check_refusal(answer) << "\n";
    } else if (burrbeech_check_missed(answer)) {
        std::cout << "missed " << burrbeech_check_missed_task(answer) << " " << burrbeech_check_missed_blocker(answer)
                  << "\n";
    } else {
        std::cout << "holds, " << burrbeech_check_time(times.data(), 1, 0) << " in task 1\n";
    }
}

static void print_refusal(uint64_t answer)
{
    std::cout << "refused " << burrbeech_refusal(answer) << ", task " << burrbeech_refusal_task(answer);
    if (burrbeech_refusal_length(answer) != 0) {
        std::cout << ", frame " << burrbeech_refusal_frame(answer) << ", length " << burrbeech_refusal_length(answer)
                  << ", other frame " << burrbeech_refusal_other_frame(answer);
    }
    std::cout << "\n";
}

static void print_analysis(const std::string &name, uint64_t answer, const std::vector<uint32_t> &times)
{
    std::cout << name << ": ";
    if (burrbeech_refusal(answer) != 0) {
        print_refusal(answer);
        return;
    }
    if (burrbeech_analysed_missed(answer)) {
        std::cout << "missed " << burrbeech_analysed_missed_task(answer) << " "
                  << burrbeech_analysed_missed_blocker(answer) << ",";
    } else {
        std::cout << "holds,";
    }
    for (size_t task = 0; task < burrbeech_analysed_tasks(answer); task++) {
        std::cout << " " << burrbeech_analysed_time(times.data(), task, 0);
    }
    std::cout << "\n";
}

static void print_lists(const std::string &name, const Bytes &sheet)
{
    std::vector<burrbeech_task> list(BURRBEECH_TASKS_MAX);
    std::vector<uint32_t> times(BURRBEECH_TIMES_MAX);
    Bytes back(BURRBEECH_SHEET_MAX);
    uint64_t answer = burrbeech_read_list(sheet.data(), sheet.size(), list.data(), list.size());
    list.resize(burrbeech_read_tasks(answer));
    uint32_t policy = burrbeech_read_policy(answer), version = burrbeech_read_version(answer);
    std::cout << name << " read: refusal " << burrbeech_refusal(answer) << ", " << list.size() << " tasks, policy "
              << policy << ", version " << version << "\n";
    print_analysis(name + " list", burrbeech_analyse_list(policy, list.data(), list.size(), times.data(), times.size()),
                   times);
    answer = burrbeech_write_list(version, policy, list.data(), list.size(), back.data(), back.size());
    back.resize(burrbeech_written_bytes(answer));
    std::cout << name << " written: refusal " << burrbeech_refusal(answer) << ", " << back.size() << " bytes, "
              << (back == sheet ? "the same" : "other ones") << "\n";
}

static void print_converted(const std::string &name, const Bytes &sheet)
{
    Bytes there(BURRBEECH_SHEET_MAX), back(BURRBEECH_SHEET_MAX);
    uint64_t answer =
        burrbeech_convert(BURRBEECH_SHEET_VERSION_2, sheet.data(), sheet.size(), there.data(), there.size());
    there.resize(burrbeech_written_bytes(answer));
    std::cout << name << " converted: refusal " << burrbeech_refusal(answer) << ", " << there.size() << " bytes\n";
    answer = burrbeech_convert(BURRBEECH_SHEET_VERSION_1, there.data(), there.size(), back.data(), back.size());
    back.resize(burrbeech_written_bytes(answer));
    std::cout << name << " and back: refusal " << burrbeech_refusal(answer) << ", "
              << (back == sheet ? "the same" : "other ones") << "\n";
}

static void print_deadlines(const std::string &name, const Bytes &sheet)
{
    std::vector<burrbeech_task> list(BURRBEECH_TASKS_MAX);
    std::vector<uint32_t> times(BURRBEECH_TIMES_MAX);
    Bytes back(BURRBEECH_SHEET_MAX);
    uint64_t answer = burrbeech_read_list(sheet.data(), sheet.size(), list.data(), list.size());
    list.resize(burrbeech_read_tasks(answer));
    for (burrbeech_task &task : list) {
        std::copy(std::begin(task.frames), std::end(task.frames), std::begin(task.deadlines));
    }
    answer = burrbeech_analyse_list(BURRBEECH_POLICY_LISTED, list.data(), list.size(), times.data(), times.size());
    print_analysis(name + " with its times as deadlines", answer, times);
    answer = burrbeech_write_list(BURRBEECH_SHEET_VERSION_1, 0, list.data(), list.size(), back.data(), back.size());
    std::cout << name << " in version 1: refusal " << burrbeech_refusal(answer) << "\n";
    answer = burrbeech_write_list(BURRBEECH_SHEET_VERSION_2, 0, list.data(), list.size(), back.data(), back.size());
    std::cout << name << " in version 2: " << burrbeech_written_bytes(answer) << " bytes\n";
}

static void print_runs(const std::string &name, const Bytes &sheet)
{
    Bytes script(64), ticks(64);
    script.resize(
        burrbeech_worst_run_length(burrbeech_worst_run(sheet.data(), sheet.size(), script.data(), script.size())));
    std::cout << name << " worst run: " << script.size() << " bytes\n" << name << " played: ";
    uint64_t answer = burrbeech_play(sheet.data(), sheet.size(), script.data(), script.size());
    if (burrbeech_refusal(answer) != 0) {
        std::cout << "refused " << burrbeech_refusal(answer) << ", item " << burrbeech_refusal_item(answer) << "\n";
        return;
    }
    std::cout << "task " << burrbeech_play_task(answer) << " at " << burrbeech_play_tick(answer) << "\n";
    answer = burrbeech_trace(sheet.data(), sheet.size(), script.data(), script.size(), ticks.data(), ticks.size());
    ticks.resize(burrbeech_play_tick(answer));
    std::cout << name << " traced:";
    for (size_t tick = 0; tick < ticks.size(); tick++) {
        std::cout << " " << burrbeech_trace_task(ticks[tick]) << (burrbeech_trace_locked(ticks[tick]) ? "L" : "");
    }
    std::cout << "\n";
}

int main(int argc, char **argv)
{
    const char *const names[] = {"f", "g", "i", "n"};
    for (size_t i = 0; argc == 2 && i < 4; i++) {
        const std::string name = names[i];
        const Bytes sheet = read_sheet(std::string(argv[1]) + "/" + name + ".sheet");
        std::vector<uint32_t> times(BURRBEECH_TIMES_MAX);
        std::string text(BURRBEECH_REPORT_MAX, '\0');
        print_check(name, sheet);
        print_analysis(name + " sheet", burrbeech_analyse_sheet(sheet.data(), sheet.size(), times.data(), times.size()),
                       times);
        print_lists(name, sheet);
        print_converted(name, sheet);
        uint64_t answer =
            burrbeech_report(sheet.data(), sheet.size(), reinterpret_cast<uint8_t *>(&text[0]), text.size());
        std::cout << text.substr(0, burrbeech_report_length(answer));
        print_runs(name, sheet);
    }
    if (argc == 2) {
        print_deadlines("j", read_sheet(std::string(argv[1]) + "/j.sheet"));
    }
    return std::cout.flush() ? 0 : 3;
}
