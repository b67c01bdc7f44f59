// Includes the header from C++, and judges a confirmation. Its last line is 'N passed, N failed'.
#include "accepted.h"

#include <cstdio>
#include <type_traits>
#include <vector>

static_assert(std::is_trivial<arpki_answer>::value && std::is_standard_layout<arpki_answer>::value, "arpki_answer");
static_assert(std::is_trivial<arpki_lesson>::value && std::is_standard_layout<arpki_lesson>::value, "arpki_lesson");
static_assert(std::is_standard_layout<arpki_keys>::value, "arpki_keys");
static_assert(std::is_trivial<arpki_followed>::value && std::is_standard_layout<arpki_question>::value, "arpki_followed");
static_assert(sizeof(arpki_answer) == 144 && sizeof(arpki_lesson) == 72 && sizeof(arpki_keys) == 56, "sizes");
static_assert(sizeof(arpki_question) == 48 && sizeof(arpki_followed) == 576, "sizes");

int main(int argc, char **argv)
{
    static question asked;
    if (argc != 2 || !read_question(argv[1], &asked))
        return 2;
    const arpki_keys keys = keys_of(&asked);
    const std::vector<uint8_t> bytes(asked.confirmation, asked.confirmation + asked.confirmation_len);
    arpki_question question = asked_in(&asked, 9);
    question.confirmation = bytes.data();
    arpki_answer answer;
    const bool accepted = arpki_judge(&keys, &question, &answer) == ARPKI_ACCEPTED && answer.subject.bytes[8] == 0x11;
    arpki_followed followed;
    const std::vector<uint8_t> none(1);
    const bool pinned = arpki_follow(&keys, &question, none.data(), 0, none.data(), 0, &followed) == ARPKI_ACCEPTED
        && followed.keep == ARPKI_KEEP_FIRST;
    const std::vector<uint8_t> pin(followed.first, followed.first + followed.first_len);
    const bool same = arpki_follow(&keys, &question, pin.data(), pin.size(), none.data(), 0, &followed) == ARPKI_ACCEPTED
        && followed.keep == ARPKI_KEEP_NOTHING && followed.answer.subject.bytes[8] == 0x11;
    question.confirmation_len--;
    const bool refused = arpki_judge(&keys, &question, &answer) == ARPKI_REFUSED && answer.check == ARPKI_CHECK_FORM
        && answer.subject.bytes[8] == 0;
    const int passed = accepted + pinned + same + refused;
    std::printf("%d passed, %d failed\n", passed, 4 - passed);
    return passed != 4;
}
