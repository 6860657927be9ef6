// The header in C++: its functions are found under their plain names, and answer.
#include "plankskein.h"

int main()
{
    unsigned char report[PLANKSKEIN_REPORT];
    bool right = plankskein_decode(PLANKSKEIN_TEXT, nullptr, 0, nullptr, 0, nullptr, 0, report, sizeof report) == PLANKSKEIN_ROOM_ASKED;
    right = plankskein_escape(PLANKSKEIN_TEXT, nullptr, 0, nullptr, 0, report, sizeof report) == PLANKSKEIN_DONE && right;
    right = plankskein_check(PLANKSKEIN_TEXT, nullptr, 0, nullptr, 0, nullptr, 0, nullptr, 0, report, sizeof report) == PLANKSKEIN_DONE && right;
    return right ? 0 : 1;
}
