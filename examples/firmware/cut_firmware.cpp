/* cut-firmware: cuts the power of a board under a firmware at every moment at which its memory changes. What it is told is `usage` below. */
#include "words.hpp"

int main(int count, char **given)
{
    try {
        Words words(count, given);
        if (words.asks_help) {
            fputs(usage, stdout);
            return 0;
        }
        Image image(words.image);
        words.settle();
        Campaign campaign(words.plan, image);
        bool is_right = campaign.run();
        if (words.tells_speed)
            campaign.tell_speed();
        return is_right ? 0 : 1;
    } catch (const Refusal &why) {
        fflush(stdout);
        fprintf(stderr, "cut-firmware: %s\n", why.what());
    } catch (const std::bad_alloc &) {
        fprintf(stderr, "cut-firmware: memory ran out\n");
    }
    return 2;
}
