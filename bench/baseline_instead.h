/* With -include, a program written for margins.h calls the baseline, which has no door over records. */
#define margins_check baseline_check
#define margins_plain baseline_plain
#define margins_ball baseline_ball
#define margins_ball_doubles baseline_ball_doubles
#define margins_admit baseline_admit
#define margins_pack baseline_pack
#define margins_pack_text baseline_pack_text
#define margins_unpack baseline_unpack
#define margins_to_decimal baseline_to_decimal
#define margins_from_decimal baseline_from_decimal
#define margins_explain baseline_explain
#define WITHOUT_RECORDS
