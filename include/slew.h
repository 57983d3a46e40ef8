/* The slew planner, as a controller calls it from C or C++ on x86-64. Link target/staticlib/libexport.a, which `oracle/archives export` writes;
 * the functions below "Rooms with moving air" are in libexport_tools.a, which `oracle/archives export_tools` writes, those below "Whole numbers for the drive board" in
 * libexport_board.a, which `oracle/archives export_board` writes, those below "A whole mosaic" in libexport_mosaic.a, which `oracle/archives export_mosaic` writes, those below
 * "Ask, then commit" in libexport_preview.a, which `oracle/archives export_preview` writes, slew_plan_eigenaxis_numbers in libexport_eigenaxis.a, which `oracle/archives
 * export_eigenaxis` writes, those below "Reference trajectories" in libexport_reference.a, which `oracle/archives export_reference` writes.
 *
 * Every function here is proved to answer what the definitions say, for every value of its arguments, NaN and infinities included, and to end. Nothing is
 * allocated, nothing is kept between calls, nothing is read or written but what is lent: calls from several threads need only different buffers.
 *
 * The caller's part, which no call checks:
 * - A pointer is to as many members as its count or its array says, and not null, even where the count is 0. It is aligned as its type is in C: 8 bytes for double, size_t, uint64_t and
 *   int64_t, 4 for int32_t and uint32_t, any for uint8_t.
 * - What is lent for writing overlaps nothing else that is lent.
 * - A flag (`bool`) is a byte of 0 or 1, as C and C++ make it of any number. A caller in another language sees to that: nothing is promised for a 2. As compiled the lowest bit counts, so a 2 is
 *   false, and as `limited` it would leave out the slew limit. The flags in `counts` are whole numbers, and there nothing but 1 says yes: a 2 is no pyramid and no power limit.
 * - Floats round to nearest and subnormals are kept, as in every program that has not changed this.
 * - The thread has 256 kB of stack. Measured by painting it, whatever the controls, as an older Rattle kit compiled it: 164 kB in the functions of mosaics, 144 in slew_sample, 136 in the others that search, 125 in
 *   slew_plan_eigenaxis_numbers, 19 in slew_reconstruct.
 *
 * How long a plan takes is bounded in forward runs, not in seconds. Measured, the slowest of 300 random slews of a laboratory for each kind of actuators, refused ones too, in ms of an
 * AMD EPYC's time beside other work, as an older Rattle kit compiled it (`oracle/entries`):
 *
 *   controls in a row                        3      4      8     12
 *   slew_plan_numbers                        6      7     22     48
 *   .. with a pointing weight                5      9     27     59
 *   slew_plan_eigenaxis_numbers            0.4    0.6    0.4    0.5
 *
 * A refusal is its number of 1 to 30, with a place and the forward runs begun (docs/REFUSALS.md); 0 is no refusal. */
#ifndef SLEW_H
#define SLEW_H

/* The interface's version: the first number changes where a caller has to, the second where something is added. */
#define SLEW_VERSION "3.2.0"

#include <stdbool.h>
#include <stddef.h>
#include <stdint.h>

#ifdef __cplusplus
extern "C" {
#endif

/* How many doubles the workspace needs for rows of `controls` controls: 3 with no actuators, else the wheels, the thrusters, and 4 for a gyro pyramid.
 * `residuals` is 28, or 79 where the pointing weight is above 0. A longer workspace serves as well; a shorter one is refusal 9. 3 controls: 4,179, with
 * pointing 6,882; 4 controls: 6,547, with pointing 10,066. A row has at most 12 controls: SLEW_WORKSPACE_MOST (53,970) serves every problem. */
#define SLEW_WORKSPACE(controls, residuals) \
    ((1 + 16 * (size_t)(controls)) * (1 + 16 * (size_t)(controls) + (residuals) + 6) + 4 * (size_t)(residuals))
#define SLEW_WORKSPACE_MOST SLEW_WORKSPACE(12, 79)

/* The least size of the buffer that takes an answer's text, in bytes. */
#define SLEW_ANSWER 16384

/* Plans the problem of a text (docs/FORMATS.md, "A problem's text") with the planner's own seed. The answer is the text that the program slew prints, a path or a
 * refusal, without a final zero; what is returned is how many bytes it has. A refusal begins with "(refused". What stood behind the answer in `out` stays.
 *
 * An `out` of less than SLEW_ANSWER bytes gets nothing: 0 is returned and no run begins. The workspace is untouched where no forward run began, and all
 * +0.0 otherwise. */
size_t slew_plan(const uint8_t *text, size_t text_count,
                 double *workspace, size_t workspace_count,
                 uint8_t *out, size_t out_count);

/* As slew_plan, with a caller's seed: its duration, then 17 rates and 17 torques, three numbers a node: 103 numbers. Another count is refusal 10. Of
 * the rates only the count matters, and the last torque is not read. */
size_t slew_plan_from(const uint8_t *text, size_t text_count,
                      const double *seed, size_t seed_count,
                      double *workspace, size_t workspace_count,
                      uint8_t *out, size_t out_count);

/* One dense sample, number `index` from 0, of the path that slew_plan finds of a text. `requested` and `alpha` as in slew_sample_count: with an alpha of 0
 * a path of up to 24,000 s has `requested` samples, and at least 17. Returns 0 and puts 14 numbers into `out`: time, attitude, rate, torque, body momentum.
 * Or returns a refusal's number, and puts its place and its runs into the first two of `out`. What stands behind those stays. The workspace is left as by
 * slew_plan.
 *
 * An `out` of less than 14 numbers gets nothing: 99 is returned and no run begins. Each call plans anew: for many samples of a path call slew_plan_numbers
 * once, then slew_sample_path. */
uint64_t slew_sample(const uint8_t *text, size_t text_count,
                     double *workspace, size_t workspace_count,
                     size_t requested, double alpha, size_t index,
                     double *out, size_t out_count);

/* A problem in numbers, for the functions below.
 *
 * counts: wheels, thrusters, 1 where there is a gyro pyramid (else 0); for each of eight wheels 1 where it has a power limit (else 0).
 * actuators: eight wheel axes of three numbers (0 to 23), their largest torques (24 to 31), momenta (32 to 39), powers (40 to 47); twelve thruster axes
 *   (48 to 83), their largest torques (84 to 95); the pyramid's skew, momentum of a wheel, largest gimbal rate, smallest measure (96 to 99). What stands for
 *   actuators that are not there is ignored.
 * body: q0 and qf, scalar first (0 to 7); the inertia by rows (8 to 16); the torque limits (17 to 19); the slew limit (20), read where `limited` is true;
 *   the weights of time, control, energy, pointing, smoothness, momentum (21 to 26); the norm and the tie tolerance (27, 28); the momenta that
 *   eight wheels start with (29 to 36), of which those of wheels that are not there are ignored.
 * Units: kg m2, N m, N m s, W, rad, rad/s, s. */

/* Plans it with the planner's own seed. Returns 0, or a refusal's number.
 *
 * told: a refusal's place (else 0), the forward runs begun; of a path the controls in a row, its wheels, its iterations.
 * duration, max_defect, decision, nodes: the path: its duration; the largest defect of its run; the duration and 16 rows of controls, one row after
 *   another, zeros behind them; 17 nodes of 22 numbers, one after another: time, attitude, rate, torque, body momentum, eight wheel momenta. Beside a
 *   refusal all of them are zeros. In a path every number is finite but the body momentum of the last node, which can be a NaN or an infinity.
 * held: which controls saturate: for each place of a row how many of its 16 controls were larger in size than their limit, and were held to it, in the projection
 *   that made the decision: of the seed's allocated rows, or of the trial that the search took last. At most 16; 0 behind the controls and beside a refusal.
 * The workspace is untouched where no forward run began, and all +0.0 otherwise. */
size_t slew_plan_numbers(const size_t counts[11], const double actuators[100], const double body[37], bool limited,
                         double *workspace, size_t workspace_count,
                         size_t told[5], double *duration, double *max_defect, double decision[193], double nodes[374],
                         size_t held[12]);

/* The same with a caller's seed: a duration, 17 rates and 17 torques of three numbers (51 each; other counts are refusal 10).
 * Of the rates only the count matters, and the last torque is not read. */
size_t slew_plan_from_numbers(const size_t counts[11], const double actuators[100], const double body[37], bool limited,
                              double seed_duration, const double *rates, size_t rates_count, const double *torques, size_t torques_count,
                              double *workspace, size_t workspace_count,
                              size_t told[5], double *duration, double *max_defect, double decision[193], double nodes[374],
                              size_t held[12]);

/* The same about one axis (docs/MANUAL.md, "Slews about one axis"): the planner's answer from the eigenaxis seed of the shortest duration that the ladder finds, fastest or, where `gentle` is
 * true, along one smooth wave. The weights (body 21 to 26) are not read, so the workspace is that of 28 residuals. The runs told are those of every try, at most 226,258. In libexport_eigenaxis.a. */
size_t slew_plan_eigenaxis_numbers(const size_t counts[11], const double actuators[100], const double body[37], bool limited, bool gentle,
                                   double *workspace, size_t workspace_count,
                                   size_t told[5], double *duration, double *max_defect, double decision[193], double nodes[374],
                                   size_t held[12]);

/* Reference trajectories (docs/MANUAL.md, "Reference trajectories"): a smooth rotation about one axis from rest to rest, sampled at `steps` equal steps. The wheels' momenta follow
 * from the conservation of the total angular momentum at each sample, so no error accumulates. In libexport_reference.a; no workspace.
 *
 * The problem is as in slew_plan_numbers; weights are not read. Where `timed` is true the duration is `given`; else it is the shortest that the search finds: at most 33 trials on a grid
 * of 64 steps, then at most 32 at `steps`. Returns 0, or a refusal's number: the checks of a problem (1 to 6, 22); 20 of more than 100,000 steps; 8 of a pyramid, or of wheels and thrusters
 * together; 6 at place 1 of one or two actuators, or of axes that do not span; 10 of no step, or of a duration that is not finite and above 0; else what the last trial passes: 11, 13 (power),
 * 17 (torque box), 18 (slew limit), 19 (a wheel's momentum), 29 (a control), and 14, 15 and 30 where rounding spoils an end or the momentum balance, which no slew of a laboratory met.
 *
 * told: the refusal's place, which is a sample or a step, or 0; the trials; the samples that they evaluated. duration: that of the reference. end: the wheels' momenta in its last sample,
 * to begin the next slew with. Beside a refusal duration and end have no meaning. */
size_t slew_plan_reference_numbers(const size_t counts[11], const double actuators[100], const double body[37], bool limited,
                                   bool timed, double given, size_t steps,
                                   size_t told[3], double *duration, double end[8]);

/* The same, and its samples, one a row of 31 numbers: time, attitude, rate, its derivative, eight wheel momenta, and twelve controls from here to the next sample (zeros in the last):
 * wheel torques, which are the rates of the wheels' momenta, thruster torques, or body torques. There are steps + 1 samples. `rows_count` counts the rows that are lent: `written` gets how many
 * are written, the smaller of the two. Rows behind them stay, and beside a refusal all do. */
size_t slew_reference_list_numbers(const size_t counts[11], const double actuators[100], const double body[37], bool limited,
                                   bool timed, double given, size_t steps,
                                   double (*rows)[31], size_t rows_count, size_t *written,
                                   size_t told[3], double *duration, double end[8]);

/* One run of the step law on a decision, no search: an answered path's problem and decision give its nodes and its max_defect again, bit for bit, by proof. In
 * libexport_runs.a, which `oracle/archives export_runs` writes. Returns 0, or a refusal's number: the checks (1 to 6, 8, 22) with 0 runs, or 5, 11, 12, 13 of the run; beside it
 * nodes and defect are zeros. `place` gets the refusal's place, or 0; `runs` 1 where the run began, else 0. The duration is taken as it stands. */
size_t slew_reconstruct(const size_t counts[11], const double actuators[100], const double body[37], bool limited,
                        const double decision[193], double nodes[374], double *max_defect, size_t *place, size_t *runs);

/* The bang-coast-bang profile from which the planner's own seed is taken. Returns 0 and the 22 numbers: angle, acceleration, time of acceleration, time of
 * coast, duration, peak rate (0 to 5), axis (6 to 8), inertia by rows (9 to 17), q0 (18 to 21). Or a refusal's number (1 to 7, 11, 22), and leaves `profile`
 * as it was. `place` gets the refusal's place, or 0. */
size_t slew_problem_profile(const size_t counts[11], const double actuators[100], const double body[37], bool limited,
                            double profile[22], size_t *place);

/* How many dense samples a path of this duration has: the most of `requested`, 17, and what an acceleration of `alpha` (number 1 of the profile) asks for. A half turn has
 * no profile (refusal 7): of its path about one axis the largest change of rate over a step, divided by the step's time, serves.
 * Returns 0 and the count, or 20 where it is over 100,000, and leaves `count` as it was. */
size_t slew_sample_count(double duration, size_t requested, double alpha, size_t *count);

/* Dense sample number `index`, from 0, of a path: time, attitude, rate, torque, body momentum. `inertia` (by rows) and `tolerance` (the norm tolerance) are
 * the problem's, `duration` and `nodes` the path's. Returns 0, or a refusal's number (5 and 11 at the sample, 20 for too many samples or an index that is
 * not below the count); beside a refusal the sample is zeros. `place` gets the refusal's place, or 0.
 *
 * Of a path that this planner has answered each part of a sample's rate is finite, and in size at most that of the larger of its two nodes' parts times
 * 1 + 2^-50, plus 2^-1070. It can pass the larger one by a last place. */
size_t slew_sample_path(const double inertia[9], double tolerance, double duration, const double nodes[374],
                        size_t requested, double alpha, size_t index,
                        double sample[14], size_t *place);

/* All dense samples of a path in one call, in libexport_samples.a: row number i is what slew_sample_path gives for index i, bit for bit, in about two thirds of the time of one call a
 * sample. The first slew_sample_count of `rows` are written; `written` gets how many, and what stands behind them stays. Returns 0; or the number of the first sample that is refused, and
 * the rows before it are written; or 20 for too many samples. `place` gets the refusal's place, or 0. Fewer rows lent than there are samples get nothing: 99 is returned. */
size_t slew_sample_list(const double inertia[9], double tolerance, double duration, const double nodes[374],
                        size_t requested, double alpha,
                        double (*rows)[14], size_t rows_count, size_t *written, size_t *place);

/* A whole mosaic, in libexport_mosaic.a: 2 to 64 attitudes, a slew from rest to rest from each to the next (a leg), the first with the wheels turning as the body's momenta
 * say, each later one as the leg before it ended. The problem is declared as above; the attitudes of `body` are not read. Each leg is what slew_plan_numbers, or by a way about one
 * axis slew_plan_eigenaxis_numbers, gives for that leg alone, with these momenta in `body`. The first refused leg ends the mosaic; the legs before it stand.
 *
 * A cursor tells how a mosaic stands. cursor: the legs answered, which is also the index of the next leg or of the refused one; their forward runs; the number of a refusal, or
 *   0, its place, and the runs of the refused leg. sums: the duration of the answered legs, added in order; the momenta of eight wheels that the next leg starts with. */
#define SLEW_TILES_MOST 64

/* The way in which legs are planned: by the search from the planner's own seed; about one axis, at the shortest duration that the search over durations finds; about one axis, gently. About one axis a leg's runs are
 * those of every try. Another number is no way: 99 is returned, nothing is planned, and slew_mosaic_next leaves the cursor as it is. */
#define SLEW_BY_SEARCH 0
#define SLEW_BY_EIGENAXIS 1
#define SLEW_BY_EIGENAXIS_GENTLE 2

/* One leg, from one attitude to another, scalar first. A mosaic begins with `cursor` all 0, sums[0] 0 and the wheels' momenta behind it (the momenta of `body` are not read here).
 * Returns 0, or the leg's refusal; told, duration, max_defect, decision, nodes, held and the workspace as by slew_plan_numbers. A cursor that has 63 legs, or more than 15,000,000 runs (no
 * mosaic has), is refused with 23. Legs of one mosaic may be planned by different ways. After a refusal the cursor stays as it is: its number is returned again, with 0 runs, and nothing is
 * planned. */
size_t slew_mosaic_next(const size_t counts[11], const double actuators[100], const double body[37], bool limited,
                        size_t way, const double from[4], const double to[4], size_t cursor[5], double sums[9],
                        double *workspace, size_t workspace_count,
                        size_t told[5], double *duration, double *max_defect, double decision[193], double nodes[374],
                        size_t held[12]);

/* All of it: tiles_count attitudes. Returns 0, or the refusal's number, as in the cursor. Refusal 23: fewer than 2 attitudes, or more than 64. Each lent list gets a row for each
 * answered leg, in turn: forward runs, controls in a row, wheels, iterations; duration, largest defect; decision; nodes. (Which controls were held, slew_mosaic_next tells.) What stands behind those rows stays. A list of fewer rows
 * than there are legs (a leg fewer than attitudes), or a number that is no way: 99 is returned, and nothing is planned. The workspace is untouched where no leg began a run, and all +0.0 otherwise. */
size_t slew_mosaic(const size_t counts[11], const double actuators[100], const double body[37], bool limited,
                   size_t way, const double (*tiles)[4], size_t tiles_count,
                   size_t (*told)[4], size_t told_count, double (*times)[2], size_t times_count,
                   double (*decisions)[193], size_t decisions_count, double (*nodes)[374], size_t nodes_count,
                   double *workspace, size_t workspace_count,
                   size_t cursor[5], double sums[9]);

/* Ask, then commit: a slew is previewed from the wheel momenta on record, and started later if the record still has the same bits; in libexport_preview.a.
 *
 * The record is the caller's: a count of wheels and eight momenta, of which those past the count are neither read nor compared. It goes into each call and comes back from a start. A preview is what its call leaves with the
 * caller: the number returned, told, nodes, and the momenta that it began from. Any number of them can be held at a time; nothing is kept here. */

/* As slew_plan_numbers, with the momenta on record in the place of body's (29 to 36), which are not read. A wheel that only the record or the problem has is refusal 22. began_wheels and began get the
 * record's count and its eight numbers, beside a refusal too. The record stays. */
size_t slew_preview_numbers(const size_t counts[11], const double actuators[100], const double body[37], bool limited,
                            size_t record_wheels, const double record[8],
                            double *workspace, size_t workspace_count,
                            size_t told[5], double *duration, double *max_defect, double decision[193], double nodes[374], size_t held[12],
                            size_t *began_wheels, double began[8]);

/* The same with a caller's seed, as slew_plan_from_numbers. */
size_t slew_preview_from_numbers(const size_t counts[11], const double actuators[100], const double body[37], bool limited,
                                 size_t record_wheels, const double record[8],
                                 double seed_duration, const double *rates, size_t rates_count, const double *torques, size_t torques_count,
                                 double *workspace, size_t workspace_count,
                                 size_t told[5], double *duration, double *max_defect, double decision[193], double nodes[374], size_t held[12],
                                 size_t *began_wheels, double began[8]);

/* Starts a preview. refusal: the number that it returned; began_wheels, began: the momenta that it began from; path_wheels: told[3]; nodes: its nodes.
 *
 * Returns 0, and the record is the path's last momenta: those of node 16, path_wheels of them. Or returns 26, and the record is as it was: a wheel's momentum has other bits than the preview began from (-0.0 differs
 * from 0.0; all NaNs are one), or only one of the two has the wheel. `place` gets the first such wheel, else 0. A preview that was refused has no path to start: 26 at place 0. A count above 8 is 26 at place 8
 * at the latest. */
size_t slew_start(size_t *record_wheels, double record[8],
                  size_t refusal, size_t began_wheels, const double began[8], size_t path_wheels, const double nodes[374],
                  size_t *place);

/* Whole numbers for the drive board: 32-bit signed numbers of a fixed unit, in libexport_board.a.
 *
 * An attitude's parts count units of 2^-30; rates (rad/s), torques (N m) and momenta (N m s) count coarse units, 2^-20. A part is rounded to the nearest number, a tie to the even
 * one, so it is at most half a unit off; -0.0 is 0. Refusal 24: a part is not finite, or its number is outside -2^31 to 2^31 - 1 (a rate, torque or momentum of 2,048 or more). */
#define SLEW_COARSE true
#define SLEW_FINE false

/* A part's number. Returns 0, or 24, and then `number` is 0. */
size_t slew_board_part(double part, bool coarse, int32_t *number);

/* The float that a number stands for, exactly. slew_board_part gives the number again, for every one of the 2^32. */
double slew_board_read(int32_t number, bool coarse);

/* Dense sample number `index` of a path, as slew_sample_path gives it, in the drive board's numbers: attitude (0 to 3), rate (4 to 6), torque (7 to 9), body momentum (10 to 12); the
 * time is left out. Returns 0, or a refusal's number: 20, 5 and 11 as there, then 24 at the sample. Beside a refusal the numbers are zeros. `place` gets the refusal's place, or 0. */
size_t slew_board_sample(const double inertia[9], double tolerance, double duration, const double nodes[374],
                         size_t requested, double alpha, size_t index,
                         int32_t numbers[13], size_t *place);

/* The whole list: a row for each sample, the first slew_sample_count of `rows`. `written` gets how many rows were written; what stands behind them stays. Returns 0; or the number of
 * the first sample that is refused, and the rows before it are written; or 20 for too many samples. `place` gets the refusal's place, or 0. Fewer rows lent than there are samples
 * get nothing: 99 is returned. */
size_t slew_board_list(const double inertia[9], double tolerance, double duration, const double nodes[374],
                       size_t requested, double alpha,
                       int32_t (*rows)[13], size_t rows_count, size_t *written, size_t *place);

/* Below: functions that stand beside a plan. Link target/staticlib/libexport_tools.a, which `oracle/archives export_tools` writes. */

/* What a refusal means, in the sentence that the programs print: number, place and forward runs as a call returned and told them; 0 runs where it tells none. `sampled` is true where a
 * dense sample was refused and not a plan: of slew_sample_path, slew_sample_list, slew_board_sample and slew_board_list, and of slew_sample where slew_plan answers the same text with a path. The answer is
 * how many bytes the sentence has, its line feed too; as many of them as `out` holds are put there, without a final zero. 256 bytes hold every sentence. */
size_t slew_explain(size_t number, size_t place, size_t runs, bool sampled, uint8_t *out, size_t out_count);

/* Byte planes of a recorder's column: each number's 64 bits are combined with its predecessor's by exclusive or (the first is kept), then all top bytes stand
 * first, all next bytes after them, down to the lowest. Like bytes stand together, so a compressor finds more in them. A column is up to SLEW_COLUMN_MOST bit
 * patterns: for doubles cast the pointer, `(const uint64_t *)doubles`, and every bit comes back, a NaN's too. Any words of 64 bits serve as well.
 *
 * Returns 0, and the first 8 * column_count bytes of `out` are the planes; or 28 where the column is longer or `out` shorter than that, and `out` is as it was.
 * What stood behind the planes stays. A column of 0 gives no bytes. */
#define SLEW_COLUMN_MOST 4096
size_t slew_encode_planes(const uint64_t *column, size_t column_count, uint8_t *out, size_t out_count);

/* And back. Returns 0, and the first bytes_count / 8 words of `out` are the column whose planes the bytes are: there is exactly one for any 8 * n bytes. Or 28
 * where bytes_count is not 8 times a count up to SLEW_COLUMN_MOST or `out` is shorter than that count, and `out` is as it was. What stood behind the column stays. */
size_t slew_decode_planes(const uint8_t *bytes, size_t bytes_count, uint64_t *out, size_t out_count);

/* One text for one problem: the canonical text of a problem's text, which two texts share exactly when they are the same problem (docs/FORMATS.md, "A problem's text").
 *
 * out: SLEW_TEXT_MOST bytes or more. The canonical text is never longer than its source.
 * bytes: how many bytes it has; 0 where the text is refused.
 * place: the place of a refusal; 0 where there is none.
 *
 * Returns 0; or 21 with the first line that is wrong or missing, from 1, and 0 of a text over SLEW_TEXT_MOST bytes; or 1 with 0 for more than 8 wheels and 1 for more
 * than 12 thrusters; or 99 where fewer bytes are lent. `out` is then as it was; else what stood behind the text stays. */
#define SLEW_TEXT_MOST 4096
size_t slew_canonical(const uint8_t *text, size_t text_bytes, uint8_t *out, size_t out_bytes, size_t *bytes, size_t *place);

/* An order for the tiles of a mosaic, tile 0 first.
 *
 * times: whole milliseconds from each tile to each other, row after row, tiles x tiles of them; each is 1 to 10,000,000, but what stands from a tile to itself is
 *   not read.
 * budget: how many tiles may be placed in the search, those then dropped too. Ten tiles never want more than 986,409.
 * order: the tiles in the order found, zeros behind them.
 * told: the order's cost; the tiles placed; 1 where the budget was used up (one more was wanted), else 0; the floor, which no order costs less than.
 *
 * Returns 0, or 25 for no tile, more than 10, another count of times than tiles x tiles, or a time outside; then order and told are zeros. Where the budget was
 * not used up no order is cheaper; else the order is at most cost - floor above the cheapest. A larger budget never gives a dearer order. */
size_t slew_order(size_t tiles, const uint32_t *times, size_t times_count, uint64_t budget,
                  size_t order[10], uint64_t told[4]);
/* Rooms with moving air: drive against draught, in libexport_tools.a.
 *
 * One axis, in whole steps: an angle from -64 to 64, a rate from -8 to 8. In each turn the drive adds -2 to 2 to the rate, the draught sees it and adds -1, 0
 * or 1, then the angle moves by the new rate. Where a turn ends outside either range the drive has lost. Home is an angle within 4 and a rate within 2.
 *
 * Every call works out the turns of all starts, in 2,193 bytes of the stack: about a third of a millisecond. Who asks often keeps what slew_region gives. */

/* What stands for none: the turns of a start that is held off, a choice, a reply. */
#define SLEW_NONE 255

/* How many starts there are. */
#define SLEW_STARTS 2193

/* What becomes of a start. Returns 0, and `turns` gets the fewest turns, up to 64, in which the drive can force home whatever the draught does, `choice` the
 * drive's first choice for that, the lowest that does it. A start that is home already has 0 turns and SLEW_NONE as its choice; one that the draught can hold
 * off for 64 turns has SLEW_NONE for both. A start outside the ranges is 27, and both are as they were. */
size_t slew_outcome(int64_t angle, int64_t rate, size_t *turns, int64_t *choice);

/* The draught's lowest reply to a choice of the drive that keeps it from home for `left` turns, 1 to 64, this one counted; SLEW_NONE where no reply does it, and
 * at home. Returns 0; or 27, and leaves `reply` as it was, for a start outside the ranges, for a choice that is not -2 to 2, and for other turns left. */
size_t slew_reply(int64_t angle, int64_t rate, size_t left, int64_t choice, int64_t *reply);

/* The fewest turns of every start, as slew_outcome has them: that of an angle and a rate is number (angle + 64) * 17 + (rate + 8). */
void slew_region(uint8_t turns[SLEW_STARTS]);

#ifdef __cplusplus
}
#endif

#endif
