// A block of two events in C++, the second without a post; then the check of it, and of nothing.
#include <fadc250.h>
#include <cstdio>
#include <stdexcept>
#include <vector>

static void accept(uint64_t refusal)
{
    if (refusal != FADC250_ACCEPTED)
        throw std::runtime_error(fadc250_text(refusal));
}

static std::vector<uint64_t> bench_settings()
{
    fadc250_settings named{};
    named.mode = 1;
    named.nw = 5;
    named.nsa = 1;
    named.limit = 1;
    named.slot = 5;
    named.times = 1;
    named.multiple = 4;
    named.thresholds[3] = 100;
    std::vector<uint64_t> settings(FADC250_SETTINGS);
    fadc250_put_settings(&named, settings.data());
    return settings;
}

// Posts the window if it is not empty.
static void write_event(std::vector<uint64_t> &state, std::vector<uint32_t> &words, uint32_t number,
                        const std::vector<uint16_t> &window)
{
    std::vector<uint16_t> store(FADC250_STORE(5));
    accept(fadc250_open_event(state.data(), state.size(), number, 256));
    if (!window.empty())
        accept(fadc250_post(state.data(), state.size(), store.data(), store.size(), 3, window.data(), window.size()));
    accept(fadc250_close(state.data(), state.size(), store.data(), store.size(), words.data(), words.size()));
}

static std::vector<uint32_t> write_block()
{
    const std::vector<uint64_t> settings = bench_settings();
    std::vector<uint64_t> state(FADC250_STATE);
    std::vector<uint32_t> words(FADC250_BLOCK_WORDS(2));
    accept(fadc250_set_up(settings.data(), settings.size(), state.data(), state.size()));
    accept(fadc250_open_block(state.data(), state.size(), words.data(), words.size(), 1, 2));
    write_event(state, words, 9, {10, 120, 200, 60, 11});
    write_event(state, words, 10, {});
    const uint64_t answer = fadc250_finish(state.data(), state.size(), words.data(), words.size());
    accept(answer >> 32);
    words.resize(answer);
    return words;
}

static void check(const std::vector<uint8_t> &bytes)
{
    const uint64_t answer = fadc250_check(bytes.data(), bytes.size());
    if (answer >> 32 == FADC250_ACCEPTED)
        std::printf("check: %u words\n", unsigned(answer));
    else
        std::printf("check: refused %u at word %u, %s\n", unsigned(answer >> 32), unsigned(answer),
                    fadc250_text(answer >> 32));
}

int main()
{
    const std::vector<uint32_t> words = write_block();
    for (uint32_t word : words)
        std::printf("%08X\n", unsigned(word));
    std::vector<uint8_t> bytes(4 * words.size());
    fadc250_to_bytes(words.data(), words.size(), bytes.data(), bytes.size());
    check(bytes);
    check({}); // no bytes, a null pointer: the input ends inside the block
}
