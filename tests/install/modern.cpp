// The header beside the library's own headers of the same year: a program named compare in an include folder would be taken for <compare>.
#include <array>
#include <dedakhumi.h>
#if __cplusplus >= 202002L
#include <compare>
static_assert((1 <=> 2) < 0, "<compare> is the language's");
#endif

int main()
{
	std::array<uint8_t, DEDAKHUMI_TABLE_LENGTH> table{};
	std::array<uint8_t, DEDAKHUMI_REPORT_LENGTH> report{};
	const dedakhumi_event event = dedakhumi_reset_event(DEDAKHUMI_CONDITION_HARD_RESET);
	if (dedakhumi_start(table.data(), table.size(), DEDAKHUMI_POLICY_TAS) != DEDAKHUMI_DONE)
		return 1;
	const dedakhumi_answer answer = dedakhumi_apply(table.data(), table.size(), report.data(), report.size(), event.bytes, sizeof event.bytes);
	return answer.answer == DEDAKHUMI_DONE && !dedakhumi_name(table.data(), table.size()).found ? 0 : 1;
}
