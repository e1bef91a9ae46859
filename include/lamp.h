/* lamp.h: the calls of liblamp.a, the lamp planner for a rack of laser modules.
 *
 * This file is the manual for the author of a host, a C program that uses the library. host/host.c (in a
 * release folder samples/host.c) is a whole host to copy from, and host/sitting.c (samples/sitting.c) is
 * one that plays a sitting. LAMP_RELEASE below names the release, and CHANGES.md says what each changed.
 *
 *
 * WHAT THE LIBRARY DOES
 *
 * A rack has m identical modules. A show has T slots. In each slot a module is off, or it is active at a
 * step from 0 to Q. Each slot has a load, and the steps of its active modules must sum to at least that
 * load. More light is allowed, because the projectors have a shutter. An active module costs points in
 * each slot, and switching a module on or off costs points too. The library finds how many modules should
 * be active in each slot, and at which steps, so that the whole show costs the least. It also gives the
 * cost of any other choice and tells where its points above the least went, it plans for a rack that allows
 * certain counts only, it makes practice cards, each from a number, it writes the table of the catalogue
 * module into a card, and it keeps the rules of a sitting, in which candidates submit sheets.
 *
 *
 * HOW TO LINK IT
 *
 * The library is for C and C++ on x86-64 Linux (System V calling convention). In the repository:
 *     gcc -Iinclude host.c target/staticlib/liblamp.a
 * With a release folder, where PKG_CONFIG_PATH names the folder that holds its lamp.pc:
 *     gcc host.c $(pkg-config --cflags --libs lamp)
 * The only symbol that the archive asks its host for is memset. So it can be linked into a freestanding
 * host that has a memset.
 *
 *
 * A SHORT HOST
 *
 * This plans a card and makes the sheet of the plan. The buffers are long enough for every card.
 *
 *     static uint8_t plan[LAMP_MAX_PLAN], work[LAMP_MAX_EXACT_WORK], sheet[LAMP_MAX_SHEET];
 *     struct lamp_answer answer = lamp_plan_exact(card, card_len, plan, sizeof plan, work, sizeof work);
 *     if (answer.number == 0) {
 *         size_t slots = card[7] + 256 * card[8];
 *         answer = lamp_sheet(card, card_len, plan, slots, sheet, sizeof sheet);
 *     }
 *     if (answer.number != 0)
 *         printf("refused %u: %s\n", (unsigned)answer.number, lamp_words(answer.number));
 *
 *
 * TERMS
 *
 *   point   The unit of cost. Every cost is a whole number of points.
 *   step    The light of an active module, from 0 to Q. A module at step 0 is active, and it costs F(0).
 *   off     A module that is not active is off. It gives no light and costs nothing. All modules are off
 *           before slot 1 and after slot T.
 *   light   The light of a slot is the sum of the steps of its active modules.
 *   load    The light that a slot must get at least.
 *   F(k)    The cost of one active module at step k for one slot. F(0) to F(Q) are the table.
 *   G(k)    The least of F(k) to F(Q): the least that a module costs which gives step k or more.
 *   B(k)    The step at which a module is active in the library's sheets if it has to give step k: the
 *           smallest step j from k to Q with F(j) = G(k). TABLES THAT FALL below has an example of G and B.
 *   count   How many modules are active in a slot, from 0 to m.
 *   plan    T bytes: the count of each slot, slot 1 first.
 *   sheet   m * T bytes: one for each slot and module, slot by slot, module 1 first. The byte of module j
 *           in slot t is at (t - 1) * m + (j - 1). It is the module's step, or LAMP_OFF.
 *   card    The bytes that describe a rack and a show.
 *
 *
 * THE CARD
 *
 * All numbers are unsigned and little-endian: the lowest byte comes first. Offsets and sizes are bytes.
 *
 *   at             size     field
 *   0              3        mark: the bytes 44 4C 53 in hex, which are "DLS"
 *   3              2        version: LAMP_CARD_VERSION
 *   5              1        m, the number of modules: 1 to 200
 *   6              1        Q, the top step: 1 to 200
 *   7              2        T, the number of slots: 0 to 1,024
 *   9              4        warm-up price: at most 500,000,000
 *   13             4        cool-down price: at most 500,000,000
 *   17             4 each   F(0) to F(Q): each at most 1,000,000
 *   17 + 4(Q + 1)  2 each   the loads of slots 1 to T: each at most m * Q
 *
 * A card has exactly 17 + 4(Q + 1) + 2T bytes, and no byte more. Its table is convex, which means that
 * F(k - 1) + F(k + 1) >= 2 * F(k) for 1 <= k < Q. A card that keeps all these rules is accepted. Refusals
 * 1 to 8 say which rule a card breaks.
 *
 * An example, in hex: m = 3, Q = 2, T = 3, warm-up price 3, cool-down price 2, F = 1 2 4, loads 6 0 2.
 *     44 4C 53 01 00 03 02 03 00 03 00 00 00 02 00 00 00 01 00 00 00 02 00 00 00 04 00 00 00 06 00 00 00 02 00
 * lamp_plan_exact gives cost 32 and the plan 3 1 1. Of that plan lamp_sheet makes this sheet, here with a
 * line for each slot:
 *     2 2 2
 *     0 255 255
 *     2 255 255
 * The active modules cost 12 + 1 + 4 points, the three warm-ups 9 and the three cool-downs 6.
 *
 *
 * WHAT A SHEET COSTS, AND WHEN IT SERVES
 *
 * The cost of a sheet is the sum of
 *   - F(step) for each slot and each module that is active in it,
 *   - the warm-up price for each change of a module from off to active, and
 *   - the cool-down price for each change of a module from active to off.
 * The first is its running cost, and the other two together are its switching cost.
 *
 * All modules are off before slot 1 and after slot T. So a module that is active in slot 1 is charged its
 * warm-up, and one that is active in slot T its cool-down. Each module is charged by itself: if module 1
 * stops and module 2 starts in its place, both changes are charged, though the count stays the same.
 *
 * A step is charged as it stands in the sheet, also where a higher step would cost less.
 *
 * A sheet serves the show if it has m * T bytes, each byte is 0 to Q or LAMP_OFF, and in every slot the
 * steps of the active modules sum to at least the load.
 *
 * The largest cost of a sheet that serves is below 1.03 * 10^14 points, so every cost fits uint64_t.
 *
 *
 * TABLES THAT FALL
 *
 * A table may fall at first, or up to Q: then a module costs less at a higher step. Since more light than
 * the load is allowed, a module that has to give step k may be active at any higher step, and is so if
 * that costs less. G(k), the least of F(k) to F(Q), is what it then costs, and B(k), the smallest step j
 * from k to Q with F(j) = G(k), is the step at which it is active in the sheets that the library makes.
 * For example, with Q = 3:
 *
 *   k      0   1   2   3
 *   F(k)   6   2   2   5     the table
 *   G(k)   2   2   2   5     the least entry from here to the right
 *   B(k)   1   1   2   3     the first step from here to the right that has this entry
 *
 * B(0) is 1 and not 2: of two steps that cost the same, the smaller is taken. B(3) is 3: a module that
 * has to give step 3 cannot be darker, however cheap step 2 is.
 *
 * There is a short way to both. Let p be the smallest step with the least entry of the whole table (here
 * p = 1). Because the table is convex, B(k) is k or p, whichever is greater, and G(k) is F(B(k)). G never
 * falls. If the table never falls, then p is 0, B(k) is k and G(k) is F(k). All this is proved.
 *
 *
 * THE SHEET OF A PLAN
 *
 * A count n can serve a load L if L <= n * Q. So count 0 can serve load 0 alone, and count m can serve
 * every load of an accepted card. A plan serves the show if each count can serve the load of its slot.
 *
 * The sheet of a plan is filled slot by slot. In a slot with count n > 0 and load L let q = L / n and let
 * r = L % n. Modules 1 to n are active: the first r at step B(q + 1), the others at step B(q). The rest
 * are off. In a slot with count 0 all modules are off. A plan costs what its sheet costs.
 *
 * So the light of a slot with a count above 0 is its load, unless q is less than p: then all its active
 * modules are at step p, and its light is more than its load. With load 0, for example, they are at B(0).
 *
 * An example with the table above, in hex: m = 4, Q = 3, T = 4, warm-up price 3, cool-down price 2,
 * F = 6 2 2 5, loads 7 2 0 8. It is samples/falls-first.card.
 *     44 4C 53 01 00 04 03 04 00 03 00 00 00 02 00 00 00 06 00 00 00 02 00 00 00 02 00 00 00 05 00 00 00
 *     07 00 02 00 00 00 08 00
 * lamp_plan_exact gives cost 48 and the plan 3 3 3 3. Of that plan lamp_sheet makes this sheet:
 *     3 2 2 255
 *     1 1 1 255
 *     1 1 1 255
 *     3 3 2 255
 * Slot 2 has load 2, so q = 0 and r = 2: two modules are at B(1) and one at B(0), all at step 1. They
 * give light 3 for load 2. Slot 3 has light 3 for load 0. The active modules cost 9 + 6 + 6 + 12 points,
 * the three warm-ups 9 and the three cool-downs 6. lamp_plan_coarse gives cost 52 and the plan 4 4 4 4.
 *
 *
 * THE TWO PLANNERS
 *
 * lamp_plan_exact gives a plan of least cost. It is proved that no sheet that serves the show costs less.
 * This holds for all sheets that serve, whichever modules they have active, however they spread the light
 * and however much more of it they give than the loads, and not only for sheets of plans.
 *
 * lamp_plan_coarse gives a plan of least cost among the plans that serve the show and use coarse counts
 * only. The coarse counts are 0, each power of two up to m, and m itself. It is proved that the plan's
 * cost is at most twice the least cost of any sheet that serves the show. Both planners take every
 * accepted card, also one whose table falls.
 *
 * Several plans may have the least cost. Both planners then give the one with the smallest count in slot
 * T; among those the one with the smallest count in slot T - 1; and so on back to slot 1.
 *
 *
 * A RACK THAT SWITCHES IN GROUPS
 *
 * The cooling of some racks allows certain counts only. lamp_plan_groups plans for such a rack. The host
 * hands it the allowed counts as a list, an array of uint16_t, and a whole number, the ratio r. The call
 * gives a plan of least cost among the plans that serve the show and whose counts are all in the list. If
 * there are several, it gives the one that has the smallest count in slot T, and so on back, as the other
 * planners do. It is proved that after number 0 no sheet that serves the show, and in every slot has a
 * count of the list, costs less than the plan; and that the plan's cost is at most r times the least cost
 * of any sheet that serves the show, whatever the counts of that sheet are.
 *
 * The list and the ratio must keep these rules, else the call on an accepted card gives refusal 18:
 *
 *   ratio     It is from 1 to LAMP_MAX_RATIO.
 *   entries   There are 2 to LAMP_MAX_LIST of them. The first is 0, the last is m, and each is larger than
 *             the one before it. So there are at most m + 1.
 *   gaps      A gap is the difference between two neighbouring entries. The first gap, which is the entry
 *             after 0, is at most r. Each later gap is at most r times the gap before it.
 *
 * All entries are looked at, whatever T is, also in a show without slots. The number 18 does not tell which
 * rule is broken.
 *
 * The ratio says how much the plan may cost, and it does not change the plan: a list that keeps the rules
 * with some ratio keeps them with every higher one up to LAMP_MAX_RATIO, and the plan and its cost are the
 * same. So the smallest ratio with which a list keeps the rules says the most. With ratio 1 just one list
 * keeps them, that of all counts from 0 to m: then the plan and its cost are those of lamp_plan_exact. The
 * coarse counts, as a list, keep them with ratio 2: then the plan and its cost are those of
 * lamp_plan_coarse.
 *
 * An example, in hex: m = 8, Q = 1, T = 3, warm-up price 1, cool-down price 0, F = 0 0, loads 5 3 5.
 *     44 4C 53 01 00 08 01 03 00 01 00 00 00 00 00 00 00 00 00 00 00 00 00 00 00 05 00 03 00 05 00
 * lamp_plan_exact gives cost 5 and the plan 5 5 5. If the modules switch in groups, so that the allowed
 * counts are 0, 2, 4 and 8, the gaps are 2, 2 and 4, and the list keeps the rules with ratio 2. The other
 * buffers are those of A SHORT HOST above.
 *
 *     static const uint16_t list[] = {0, 2, 4, 8};
 *     const size_t list_len = sizeof list / sizeof list[0];
 *     struct lamp_answer grouped = lamp_plan_groups(card, card_len, list, list_len, 2, plan, sizeof plan,
 *                                                   work, sizeof work);
 *     if (grouped.number == 0)
 *         printf("cost %llu, at most twice the least\n", (unsigned long long)grouped.cost);
 *     else
 *         printf("refused %u\n", (unsigned)grouped.number);
 *
 * The call gives cost 8 and the plan 8 8 8, since only count 8 can serve load 5, and to switch four modules
 * off in slot 2 and on again in slot 3 would cost 4 points more. With ratio 1 it gives refusal 18: the
 * entry after 0 is 2.
 *
 * A work buffer that is long enough for lamp_plan_exact is so for every list that keeps the rules;
 * LAMP_MAX_COARSE_WORK bytes are enough for lists of up to 10 entries. The plan is T bytes, like every
 * plan, and lamp_sheet makes its sheet, in which modules 1 to n are active where the count is n: so the
 * modules from one entry of the list up to the next go on and off together. lamp_explain on this sheet
 * gives spread 0, swaps 0, and as counts what the plan costs above the least.
 *
 * No other call knows the list. lamp_mark, lamp_explain and the acts of a sitting take sheets with any
 * counts, and the least cost that they speak of is that of lamp_plan_exact. A host whose rack allows certain
 * counts only looks at the counts of a sheet itself.
 *
 * list_len counts entries, and not bytes. An entry is a uint16_t of the host's own, not two bytes of a
 * file. If a host puts a number of more than 16 bits into the list, C takes its low 16 bits: 65,540
 * becomes 4. So a host that reads a list from its user first looks whether each number is at least 0 and
 * at most UINT16_MAX. The ratio has 64 bits, so a host hands on the number itself. If it gives a negative
 * number as the ratio, C makes it a number far above LAMP_MAX_RATIO.
 *
 *
 * WHERE THE POINTS WENT
 *
 * lamp_explain tells where the points went that a sheet which serves costs above the least cost, in three
 * numbers of points. The counts of the sheet are how many modules it has active in each slot.
 *
 *   spread   The running cost of the sheet, less the least running cost for its counts. The latter is the
 *            sum of what lamp_running_cost gives for the count and the load of each slot.
 *   swaps    The switching cost of the sheet, less that of its counts alone. The latter is the warm-up
 *            price for each module by which the count rises from one slot to the next, and the cool-down
 *            price for each by which it falls. Before slot 1 and after slot T the count is 0.
 *   counts   The cost of its counts as a plan, less the least cost, which lamp_plan_exact gives.
 *
 * None of these differences is negative. Together they are the cost above the least: the cost that
 * lamp_mark gives for the sheet, less the cost that lamp_plan_exact gives for the card. Each is 0 exactly
 * if changing that one thing alone saves nothing:
 *
 *   spread   is 0 exactly if no sheet that serves, with the same modules active in the same slots, costs
 *            less. Such a sheet may differ in the steps of these modules only.
 *   swaps    is 0 exactly if no choice of active modules, with the same count in each slot, has a lower
 *            switching cost.
 *   counts   is 0 exactly if no plan that serves costs less than the counts of the sheet as a plan. With
 *            other counts the modules and their steps are chosen anew: the sheet that lamp_sheet makes of
 *            a plan costs the least of all sheets that serve with its counts, and counts is what that
 *            sheet costs above the least cost.
 *
 * So after a success all three are 0 exactly if no sheet that serves costs less. With a refusal they are 0
 * too, so look at number first. All this is proved, for every sheet that lamp_mark accepts and every work
 * buffer that is long enough. Every sheet that lamp_sheet makes has spread 0 and swaps 0, whatever the
 * plan, and that of the exact plan has counts 0 too.
 *
 * This sheet of the card in THE CARD above costs 37 points, 5 above the least:
 *     2 2 2
 *     255 0 255
 *     2 255 255
 * lamp_explain gives spread 0, swaps 5 and counts 0. The counts are 3 1 1, as in the exact plan, and the
 * running cost is 12 + 1 + 4 points, as in its sheet. In slot 3 module 1 starts in the place of module 2,
 * which stops. The count stays 1 there, so the counts alone need neither this warm-up nor this cool-down.
 *
 * If module 3 is active in slot 3 too, at step 0, the sheet costs 43 points, 11 above the least:
 *     2 2 2
 *     255 0 255
 *     2 255 0
 * lamp_explain gives spread 1, swaps 5 and counts 5. The running cost is 12 + 1 + 5 = 18 points. The counts
 * 3 1 2 need 17, with two modules at step 1 in slot 3. The sheet has five warm-ups and five cool-downs, 25
 * points. The counts alone need four of each, 20 points. So they cost 37 as a plan, and the least is 32.
 *
 * This explains a sheet of sheet_len bytes. The other buffers are those of A SHORT HOST above.
 *
 *     struct lamp_points points = lamp_explain(card, card_len, sheet, sheet_len, work, sizeof work);
 *     if (points.number == 0) {
 *         uint64_t cost = lamp_mark(card, card_len, sheet, sheet_len).cost;
 *         uint64_t least = cost - (points.spread + points.swaps + points.counts);
 *         printf("cost %llu, the least %llu\n", (unsigned long long)cost, (unsigned long long)least);
 *     } else {
 *         printf("refused %u\n", (unsigned)points.number);
 *     }
 *
 * counts alone tells the least cost to whoever has the card, since the cost of a plan can be worked out by
 * hand. So a host that keeps a sitting explains no sheet to a candidate before the sitting is closed. The
 * library keeps no sheet: a host that will explain one after closing keeps it.
 *
 *
 * PRACTICE CARDS
 *
 * lamp_practice_card makes a card from a number, its start, which is from 1 to 4,294,967,295. A start
 * always gives the same card, so a teacher names a show by naming its start.
 *
 * The card is made of draws. They work on a number s of 32 bits, which is the start at first. A draw does
 * these three lines of C one after the other, where s is a uint32_t:
 *     s = s ^ (s << 13);
 *     s = s ^ (s >> 17);
 *     s = s ^ (s << 5);
 * What the draw gives is the new s, and the next draw works on this s. For a calculation by hand: s << 13
 * is the remainder of s * 8,192 divided by 4,294,967,296, s << 5 is the remainder of s * 32 divided by
 * the same number, s >> 17 is s / 131,072 without its remainder, and ^ is the exclusive or of the bits.
 *
 * A card takes 6 + Q + T draws, in the order of its fields. Here x is what the draw of that number gives,
 * and % is the remainder:
 *
 *   draw        field                value
 *   1           m                    1 + x % 200
 *   2           Q                    1 + x % 200
 *   3           T                    x % 65
 *   4           warm-up price        x % 1,001
 *   5           cool-down price      x % 1,001
 *   6           F(0)                 x % 1,001
 *   7           F(1)                 F(0) + d(1), where the first difference d(1) is x % 11
 *   6 + k       F(k), 2 <= k <= Q    F(k - 1) + d(k), where the difference d(k) is d(k - 1) + x % 4
 *   6 + Q + t   the load of slot t   x % (m * Q + 1), for 1 <= t <= T
 *
 * The mark and the version, which is 1, take no draw.
 *
 * An example is start 1,950. The three lines of its first draw give
 *     15976350 15976423 512441095
 * and the nine draws of its card give
 *     512441095 1150753202 1400915490 868309888 245083352 454212184 3345617652 598662574 4218901955
 * So m = 96, Q = 3, T = 0, warm-up price 446, cool-down price 514, F = 426 429 434 442, and there are no
 * loads. The differences are 3 5 8. The card, in hex:
 *     44 4C 53 01 00 60 03 00 00 BE 01 00 00 02 02 00 00 AA 01 00 00 AD 01 00 00 B2 01 00 00 BA 01 00 00
 * Start 4,294,967,255 gives a card with a load: m = 118, Q = 2, T = 1, warm-up price 23, cool-down price
 * 635, F = 757 762 770, load 197.
 *
 * The call does not give the card's length, because the card tells it. After a success its Q is card[6]
 * and its T is card[7] (card[8] is 0), so it has 17 + 4 * (card[6] + 1) + 2 * card[7] bytes. The other
 * calls are given the card with this length, even if it lies in a longer array.
 *
 * It is proved that every practice card is accepted, so both planners plan it, with buffers long enough,
 * and that its table never falls. It is proved that no practice card is longer than LAMP_MAX_PRACTICE, that
 * no draw from a start above 0 gives 0, and that two different starts never give the same number in draws
 * of the same place. From start 0 every draw would give 0, so start 0 is refused, by 14.
 *
 * If a host gives a number of more than 32 bits as the start, C takes its low 32 bits: 4,294,967,296
 * becomes 0, and -5 becomes 4,294,967,291. So a host that reads a start from its user first looks whether
 * it is at least 0 and at most UINT32_MAX.
 *
 *
 * THE CATALOGUE MODULE'S TABLE
 *
 * Every customer buys the same module, the catalogue module, and its table comes with the library. The
 * rule of the table, for k from 0 to 200, is
 *     F(k) = 400 + 3 * k + k * (k - 1) / 2
 * The division leaves no remainder, because k or k - 1 is even. So F(0) is 400, F(1) is 403, F(2) is 407,
 * and F(200) is 20,900. For a calculation by hand: F(k + 1) is F(k) + 3 + k, so the first difference is 3
 * and each later one is larger by 1 than the one before it. F(0) to F(8) are
 *     400 403 407 412 418 425 433 442 452
 *
 * lamp_catalogue_table writes F(0) to F(top) as a card has them: four bytes each, the lowest byte first,
 * 4(top + 1) bytes in all. In a card the table begins at offset 17, and the top step Q is the byte at
 * offset 6. So a host makes the first 17 bytes of the card, with Q = top, lets the call write behind them,
 * at card + 17, and puts the loads behind the table, at card + 17 + 4 * (top + 1). Of the 17 bytes it
 * leaves Q for last, and sets it after a success:
 *
 *     static uint8_t card[LAMP_MAX_CARD] = {0x44, 0x4C, 0x53, 1, 0, 3, 0, 3, 0, 3, 0, 0, 0, 2, 0, 0, 0};
 *     static const uint8_t loads[] = {6, 0, 0, 0, 2, 0};
 *     uint64_t top = 2;
 *     struct lamp_answer answer = lamp_catalogue_table(top, card + 17, sizeof card - 17);
 *     if (answer.number == 0) {
 *         size_t loads_at = 17 + 4 * ((size_t)top + 1);
 *         card[6] = (uint8_t)top;
 *         memcpy(card + loads_at, loads, sizeof loads);
 *         answer = lamp_check_card(card, loads_at + sizeof loads);
 *     }
 *
 * This makes the card of THE CARD above with the catalogue module's table, F = 400 403 407. It is
 * accepted. In hex:
 *     44 4C 53 01 00 03 02 03 00 03 00 00 00 02 00 00 00 90 01 00 00 93 01 00 00 97 01 00 00 06 00 00 00 02 00
 * lamp_plan_exact gives cost 1,648 and the plan 3 0 1, because a module that stays active through slot 2
 * costs 400 points there.
 *
 * It is proved of every card whose Q is top and whose table is these bytes that refusals 6 and 7 find
 * nothing wrong with its table, and that its table never falls. So the card is accepted exactly if all
 * else is in order: the mark, the version, m, T, the length, both prices and the loads. Q and top must be
 * the same number, because Q says where the table of a card ends. The call cannot see this: it reads
 * nothing of the card. lamp_check_card cannot see it either: with another Q, and with the length that this
 * Q makes, the card may be accepted, as a show with other loads.
 *
 * A top outside 1 to 200 is refused by 3. top has 64 bits, so a host hands on the number itself, as it
 * read it, and not card[6], which is one byte: 258 put into card[6] becomes 2, and the call would write
 * the table of top 2 without a refusal. So a host puts top into card[6] only after a success. If it gives
 * a negative number as top, C makes it a number far above 200.
 *
 *
 * A SITTING
 *
 * A sitting is an examination on one card. The supervisor opens it, seats candidates and closes it, and
 * seated candidates submit sheets, which are marked. The seven calls lamp_sitting_.. are its acts. Each
 * act names its caller: 0 is the supervisor, and a candidate has a number from 1 to 65,535. The library
 * decides what a caller may do. The host has to make sure that a caller is the one whose number it gives.
 *
 *   act      who may do it, and when                          the cost that it gives
 *   open     the supervisor, at any time                      the least cost of the card
 *   seat     the supervisor, while the sitting is open        0
 *   close    the supervisor, while the sitting is open        0
 *   submit   a seated candidate, while the sitting is open    the cost of the sheet, as lamp_mark gives it
 *   least    the supervisor, while it is open or closed;      the least cost of the card
 *            a seated candidate, while it is closed
 *   lowest   the supervisor for any seat, and a seated        the lowest cost of the candidate's sheets
 *            candidate for the own seat, while it is open     that were marked in this sitting
 *            or closed
 *   used     the supervisor, while it is open or closed       how many submissions were used
 *
 * The sitting has an allowance of 1 to LAMP_MAX_ALLOWANCE submissions, one count for all candidates
 * together. A sheet that is marked uses one submission, and so does a sheet that is refused by 11, 12 or
 * 13. A submission that is refused by another number uses none. Closing ends seating and submitting. A
 * sitting lasts until the next opening that is accepted, which may come while it is open or closed and
 * empties all seats. No act empties a single seat: a candidate keeps it until then. An opening that is
 * refused leaves the old sitting as it was.
 *
 * What the host keeps. The library keeps nothing between two acts. The host keeps the sitting, a struct
 * lamp_sitting, and the list of seats, an array of struct lamp_seat with one record for each seat. It
 * hands the sitting to every act by value, and every act gives it back in its reply, refused or not: the
 * host hands the next act what the last one gave back. It lends the list to the acts that ask for it, as
 * the last one left it and with the same length, and it lends the card of the opening to every
 * submission. It may read all three, and it alters none of them. Then every sequence of acts is answered
 * by the rules of this section, and that is proved. Two acts of one sitting must not run at the same
 * time: the second is handed what the first gives back. A host may keep several sittings, each with its
 * own list, and their acts may run at the same time.
 *
 * A host begins with a sitting that is all zero, which is unopened. The list may hold anything before the
 * first opening, which empties it. The first LAMP_MAX_SEATS records of the list are its seats. A shorter
 * list has as many seats as it has records. A list may be longer, and no act reads or writes a record
 * after the first LAMP_MAX_SEATS. seats_len counts records, and not bytes.
 *
 * What a caller is told is number, cost and marked. The sitting holds the least cost and is the host's to
 * keep: do not show it to a candidate. After an opening, plan holds a plan of least cost. It is not for a
 * candidate either. The list holds the lowest cost of every seat and is the host's to keep too. What
 * lamp_explain gives for a sheet tells the least cost, so it is for a candidate only after closing.
 *
 * It is proved that no candidate is told the least cost by lamp_sitting_least before the sitting is
 * closed. For a host that keeps the rules above it is also proved that no lowest cost is below the least
 * cost, and that no more submissions are used than the allowance. The library cannot see whether a
 * submission is lent the card of the opening: it marks the sheet on the card that it is lent.
 *
 * This opens a sitting with 30 submissions, seats candidate 4,021, and marks the candidate's sheet, which
 * has sheet_len bytes. The other buffers are those of A SHORT HOST above. A host looks at reply.number
 * after each act. It keeps reply.sitting also after a refusal, since 11, 12 and 13 use a submission.
 *
 *     static struct lamp_seat seats[LAMP_MAX_SEATS];
 *     struct lamp_sitting sitting = {0, 0, 0, 0};
 *     struct lamp_reply reply;
 *
 *     reply = lamp_sitting_open(sitting, 0, 30, card, card_len, plan, sizeof plan, work, sizeof work,
 *                               seats, LAMP_MAX_SEATS);
 *     sitting = reply.sitting;
 *     reply = lamp_sitting_seat(sitting, 0, 4021, seats, LAMP_MAX_SEATS);
 *     sitting = reply.sitting;
 *     reply = lamp_sitting_submit(sitting, 4021, card, card_len, sheet, sheet_len, seats, LAMP_MAX_SEATS);
 *     sitting = reply.sitting;
 *
 * The acts also answer a sitting and a list that no act has left. A state other than 1 and 2 counts as
 * unopened. A record is empty exactly if its candidate is 0, whatever else it holds. If two records have
 * the same candidate, the first is the candidate's seat. A record has a lowest cost if its marked is not 0.
 * The allowance is used up if submissions is not below it. Nothing is touched but what is lent.
 *
 * If a host gives a number of more than 16 bits as the caller or the candidate, C takes its low 16 bits:
 * 65,536 becomes 0, and 0 as the caller is the supervisor. So a host that reads a candidate's number from
 * its user first looks whether it is at least 1 and at most UINT16_MAX.
 *
 *
 * ANSWERS AND REFUSALS
 *
 * Every call answers every input. A success gives number 0 and a cost. A refusal gives its number and
 * cost 0. lamp_explain gives spread, swaps and counts in the place of the cost, and all three are 0 with a
 * refusal. If several refusals apply, the call gives the lowest number, wherever in the input each of them
 * lies. For example, a count above m in the last slot (12) is given before a count in slot 1 that cannot
 * serve (13). Three calls have an order of their own. lamp_practice_card tests 14 before 10, so start 0
 * gives 14 with every buffer, also with one of length 0. lamp_plan_groups tests 18 after 8 and before 10,
 * so on an accepted card a list or ratio against the rules gives 18 with every plan and work buffer.
 * lamp_sitting_submit tests 15, 16 and 17 before 11, 12 and 13, so a caller that may not submit is told
 * nothing of the sheet. The comment at each call below has its refusals in the order in which they are
 * tested. No call sets errno. lamp_words below gives the words of each number.
 *
 * The acts of a sitting give a third number, marked, and the sitting. marked is 1 only where
 * lamp_sitting_lowest gives a lowest cost, so that a candidate without a marked sheet can be told from
 * one whose lowest cost is 0. In every other reply it is 0. The sitting is given back as it was handed
 * in, where nothing else is said at the act.
 *
 * Number 9 is never given, by any call, which is proved. Before release 2.0.0 a slot had to get its load
 * exactly, and lamp_plan_coarse gave refusal 9 for a table that falls. Now it reads G in the place of F,
 * and G never falls. The name LAMP_NOT_MONOTONE stays, so that a host which has a case for it compiles, and no
 * later refusal will get the number 9.
 *
 *
 * BUFFERS
 *
 * A buffer is a pointer and a length in bytes; only the list of counts has its length in entries, and the
 * list of seats in records. All buffers belong to the host, and a call uses them until it returns and no
 * longer. A buffer must be as long as its length says, no two buffers of a call may overlap, and a list of
 * a length above 0 must be aligned, a list of counts to 2 bytes and a list of seats to 8, as every array
 * of uint16_t and of struct lamp_seat in C is: these three rules the library cannot check. A buffer of
 * length 0 may come with any pointer, also NULL.
 *
 * Buffers that are read (card of every call but lamp_practice_card, list of lamp_plan_groups, a plan given
 * to lamp_sheet, a sheet given to lamp_mark, lamp_explain or lamp_sitting_submit) have exactly the length
 * of what they hold, and no call alters them. So a plan is given to lamp_sheet with length T, even if it
 * lies in a longer array. A host that reads a card from a file needs LAMP_MAX_CARD + 1 bytes for it and may
 * leave the rest of the file unread: a card of that length is refused like any longer one.
 *
 * Buffers that are written (plan and work of a planner or of lamp_sitting_open, work of lamp_explain, sheet
 * of lamp_sheet, card of lamp_practice_card, table of lamp_catalogue_table) have at least the length that
 * the call asks for. They may be longer, and may hold anything at entry: they need no clearing, and nothing
 * in them changes the answer. After a success the bytes asked for hold the answer, in a work buffer zeros,
 * and all further bytes are as they were. After a refusal all bytes are as they were.
 *
 * The list of seats is an array of struct lamp_seat of any length. The comment at each act says which
 * records it changes. After a refusal all records are as they were.
 *
 *   buffer                          bytes asked for
 *   plan                            T
 *   work of lamp_plan_exact         (m + 1) * T, also of lamp_explain and lamp_sitting_open
 *   work of lamp_plan_coarse        10 * T, for every m
 *   work of lamp_plan_groups        list_len * T, at most (m + 1) * T where the list keeps the rules
 *   sheet                           m * T
 *   card of lamp_practice_card      17 + 4(Q + 1) + 2T of the practice card, at most LAMP_MAX_PRACTICE
 *   table of lamp_catalogue_table   4(top + 1), at most LAMP_MAX_TABLE for a top from 1 to 200
 *
 * Once lamp_check_card has accepted a card, its m is card[5] and its T is card[7] + 256 * card[8], and a
 * host may make its buffers that long. Or it takes the sizes LAMP_MAX_.. below, enough for every card. Q
 * and T of a practice card are known only after the call, so its buffer has LAMP_MAX_PRACTICE bytes.
 *
 * The separate program `plan` has buffers of fixed size. It therefore plans only shows with (m + 1) * T
 * at most 65,536, and gives refusal 10 for other accepted cards. The library has no such limit.
 *
 *
 * THREADS, MEMORY AND STACK
 *
 * The library has no static data but constants, and no call keeps anything after it returns. So all calls
 * are reentrant. Calls that run at the same time may share the buffers that are only read. A buffer that
 * is written belongs to one call at a time, and so does a list of seats.
 *
 * No call allocates memory, does input or output, or computes with floating-point numbers. (The compiled
 * code does use the SSE2 registers of x86-64, for whole numbers.) LAMP_MAX_STACK below says how much
 * stack a call uses.
 *
 *
 * WHAT IS PROVED
 *
 * Each call has a contract, in crates/lamp/src/lib.rt of the repository, and this file says in plain
 * words what the contracts say. A contract gives the number, the cost and every byte of every written
 * buffer, for every input that keeps the three rules on buffers; that of lamp_explain gives spread, swaps
 * and counts in the place of the cost, and that of an act also gives marked, the sitting and every record.
 * The contracts are proved. docs/TRUST.md says what the proofs rest on. The use of stack is measured and
 * not proved.
 */
#ifndef LAMP_H
#define LAMP_H

#include <stddef.h>
#include <stdint.h>

#ifdef __cplusplus
extern "C" {
#endif

/* The release of this library. */
#define LAMP_RELEASE "2.8.0"

/* The version of the cards that this library accepts, and of those that it makes. */
#define LAMP_CARD_VERSION 1

/* The byte of a sheet for a module that is off. */
#define LAMP_OFF 255

/* The sizes that are enough for every card, for every start and for every top step, in bytes. A host whose buffers have
 * these sizes never gets refusal 10. The work of lamp_explain and of lamp_sitting_open is that of lamp_plan_exact, and
 * its size is enough for the work of lamp_plan_groups too. */
#define LAMP_MAX_CARD 2869         /* a card of Q 200 and T 1,024: 17 + 4 * (200 + 1) + 2 * 1,024 */
#define LAMP_MAX_PLAN 1024         /* a plan of T 1,024 */
#define LAMP_MAX_EXACT_WORK 205824 /* work of lamp_plan_exact for m 200 and T 1,024: (200 + 1) * 1,024 */
#define LAMP_MAX_COARSE_WORK 10240 /* work of lamp_plan_coarse for T 1,024 and any m: 10 * 1,024 */
#define LAMP_MAX_SHEET 204800      /* a sheet of m 200 and T 1,024: 200 * 1,024 */
#define LAMP_MAX_PRACTICE 949      /* a practice card of Q 200 and T 64 (start 6,548): 17 + 4 * (200 + 1) + 2 * 64 */
#define LAMP_MAX_TABLE 804         /* table of lamp_catalogue_table for top 200: 4 * (200 + 1) */

/* The most entries of a list of counts that keeps the rules, and the largest ratio. */
#define LAMP_MAX_LIST 201
#define LAMP_MAX_RATIO 200

/* The most seats of a sitting, and its largest allowance. A list of seats may have more records: those after the 32nd
 * are not used. */
#define LAMP_MAX_SEATS 32
#define LAMP_MAX_ALLOWANCE 1000

/* The stack that a call uses, in bytes: the largest figure that the test host/limits.c measures, rounded up to a
 * multiple of 256. It counts the call's return address, those arguments and the reply that lie on the
 * stack, and the memset of the GNU C library. A dynamically linked host that binds symbols at their first
 * use needs more in the first call that uses memset, because the dynamic linker then runs on the same
 * stack: 6,152 bytes were measured on one machine. Such a host may use memset once before, or be linked
 * with -Wl,-z,now. */
#define LAMP_MAX_STACK 3328

/* What every call but lamp_explain and the acts of a sitting returns. */
struct lamp_answer {
    uint64_t number; /* 0 for a success, else the refusal */
    uint64_t cost;   /* in points; 0 with a refusal */
};

/* What lamp_explain returns: 32 bytes. With a refusal all three numbers of points are 0. */
struct lamp_points {
    uint64_t number; /* 0 for a success, else the refusal */
    uint64_t spread; /* the sheet's running cost above the least for its counts, in points */
    uint64_t swaps;  /* the sheet's switching cost above that of its counts alone, in points */
    uint64_t counts; /* the cost of its counts as a plan above the least cost, in points */
};

/* A seat: 16 bytes. A record that is all zero is an empty seat. */
struct lamp_seat {
    uint64_t lowest;    /* the lowest cost of the candidate's marked sheets, in points; 0 if there is none */
    uint16_t candidate; /* the candidate's number; 0 in an empty record */
    uint16_t marked;    /* 1 if a sheet was marked, else 0 */
    uint32_t reserved;  /* 0 after an opening; no act gives it another value, and the host leaves it as it is */
};

/* A sitting: 32 bytes. One that is all zero is unopened. It holds the least cost: do not show it to a candidate. */
struct lamp_sitting {
    uint64_t state;       /* 0 unopened, 1 open, 2 closed */
    uint64_t allowance;   /* how many submissions all candidates have together: 1 to 1,000 */
    uint64_t submissions; /* how many of them were used */
    uint64_t least;       /* the least cost of the card, in points */
};

/* What every act of a sitting returns: 56 bytes. The caller is told the first three numbers. The sitting is for the
 * host, which hands it to the next act. */
struct lamp_reply {
    uint64_t number; /* 0 for a success, else the refusal */
    uint64_t cost;   /* in points, or how many submissions were used; 0 with a refusal */
    uint64_t marked; /* 1 if the cost is a lowest cost of lamp_sitting_lowest, else 0; 0 with a refusal */
    struct lamp_sitting sitting;
};

/* These four records have no padding. A compiler that gives one of them another size than the library has stops here.
 * Before C11 and C++11 nothing is asked. */
#if defined(__cplusplus) && __cplusplus >= 201103L
#define LAMP_ASSERT_SIZE(record, bytes) static_assert(sizeof(record) == (bytes), "a record of lamp.h is padded");
#elif !defined(__cplusplus) && defined(__STDC_VERSION__) && __STDC_VERSION__ >= 201112L
#define LAMP_ASSERT_SIZE(record, bytes) _Static_assert(sizeof(record) == (bytes), "a record of lamp.h is padded");
#else
#define LAMP_ASSERT_SIZE(record, bytes)
#endif
LAMP_ASSERT_SIZE(struct lamp_points, 32)
LAMP_ASSERT_SIZE(struct lamp_seat, 16)
LAMP_ASSERT_SIZE(struct lamp_sitting, 32)
LAMP_ASSERT_SIZE(struct lamp_reply, 56)
#undef LAMP_ASSERT_SIZE

/* The refusals. The word before the colon is that of the papers which define the planner. They have no words from 14
 * on, and `start` and those after it are taken from what they say of these refusals. */
enum lamp_refusal {
    /* tests/words.py writes the lines from here on, from include/refusals.txt. */
    LAMP_NOT_A_CARD = 1,        /* not a card: under 17 bytes, or wrong mark */
    LAMP_WRONG_VERSION = 2,     /* version: the card's version is not 1 */
    LAMP_RACK_SIZE = 3,         /* rack: m, Q or top outside 1 to 200 */
    LAMP_SLOT_COUNT = 4,        /* reel: T above 1,024 */
    LAMP_CARD_LENGTH = 5,       /* length: the card's length is not 17 + 4(Q + 1) + 2T */
    LAMP_PRICE_RANGE = 6,       /* price: a price or F entry above its bound */
    LAMP_NOT_CONVEX = 7,        /* bend: table not convex */
    LAMP_LOAD_RANGE = 8,        /* glare: a load above m * Q */
    LAMP_NOT_MONOTONE = 9,      /* slope: never given; before release 2.0.0 a table that falls, coarse planner only */
    LAMP_BUFFER_TOO_SHORT = 10, /* desk: a buffer shorter than asked for */
    LAMP_WRONG_LENGTH = 11,     /* roll: a handed-in plan is not T bytes, or a sheet not m * T */
    LAMP_ENTRY_RANGE = 12,      /* entry: a count above m, or a sheet byte from Q + 1 to 254 */
    LAMP_LOAD_NOT_SERVED = 13,  /* light: a slot has too little light, or a count cannot serve its load */
    LAMP_ZERO_START = 14,       /* start: start 0 of a practice card */
    LAMP_NOT_PERMITTED = 15,    /* right: an act that the caller has no right to, at all or as the sitting stands */
    LAMP_SEAT_UNAVAILABLE = 16, /* seat: candidate 0, not seated, seated already, or no empty record in the first 32 */
    LAMP_ALLOWANCE_SPENT = 17,  /* allowance: the allowance is used up, or outside 1 to 1,000 at an opening */
    LAMP_COUNT_LIST = 18        /* groups: list of counts or ratio against the rules */
    /* tests/words.py writes the lines up to here. */
};

/* The words of a refusal, as they stand behind its colon above, for the number that a call gave. For 0 it gives
 * "success", and for a number that is none of the refusals "no such number". A host may print these words, or have its
 * own. This is no call of the library: it is compiled with the host, and nothing is proved of it. */
static inline const char *lamp_words(uint64_t number)
{
    switch (number) {
    case 0: return "success";
    /* tests/words.py writes the lines from here on, from include/refusals.txt. */
    case LAMP_NOT_A_CARD: return "under 17 bytes, or wrong mark";
    case LAMP_WRONG_VERSION: return "the card's version is not 1";
    case LAMP_RACK_SIZE: return "m, Q or top outside 1 to 200";
    case LAMP_SLOT_COUNT: return "T above 1,024";
    case LAMP_CARD_LENGTH: return "the card's length is not 17 + 4(Q + 1) + 2T";
    case LAMP_PRICE_RANGE: return "a price or F entry above its bound";
    case LAMP_NOT_CONVEX: return "table not convex";
    case LAMP_LOAD_RANGE: return "a load above m * Q";
    case LAMP_NOT_MONOTONE: return "never given; before release 2.0.0 a table that falls, coarse planner only";
    case LAMP_BUFFER_TOO_SHORT: return "a buffer shorter than asked for";
    case LAMP_WRONG_LENGTH: return "a handed-in plan is not T bytes, or a sheet not m * T";
    case LAMP_ENTRY_RANGE: return "a count above m, or a sheet byte from Q + 1 to 254";
    case LAMP_LOAD_NOT_SERVED: return "a slot has too little light, or a count cannot serve its load";
    case LAMP_ZERO_START: return "start 0 of a practice card";
    case LAMP_NOT_PERMITTED: return "an act that the caller has no right to, at all or as the sitting stands";
    case LAMP_SEAT_UNAVAILABLE: return "candidate 0, not seated, seated already, or no empty record in the first 32";
    case LAMP_ALLOWANCE_SPENT: return "the allowance is used up, or outside 1 to 1,000 at an opening";
    case LAMP_COUNT_LIST: return "list of counts or ratio against the rules";
    /* tests/words.py writes the lines up to here. */
    default: return "no such number";
    }
}

/* Checks a card.
 *
 * Reads:     card.
 * Writes:    nothing.
 * Success:   the card is accepted; cost 0.
 * Refusals:  1 to 8. Every other call that reads a card makes these checks too. */
struct lamp_answer lamp_check_card(const uint8_t *card, size_t card_len);

/* The running cost of one slot: what `count` active modules cost in a slot with load `load`, as the sheet
 * of a plan has them, without any warm-up or cool-down. With n = count, q = load / n and r = load % n it
 * is (n - r) * G(q) plus, if r is not 0, r * G(q + 1). It is 0 for count 0 and load 0. The load need not
 * be one of the card's. With the table 6 2 2 5, count 3 and load 2 cost G(0) + 2 * G(1) = 6 points.
 *
 * Reads:     card.
 * Writes:    nothing.
 * Success:   the running cost.
 * Refusals:  1 to 8; 12 if count is above m; 13 if count cannot serve the load, that is, load is above
 *            count * Q. A load above m * Q gives no 8, which speaks of the card's own loads. */
struct lamp_answer lamp_running_cost(const uint8_t *card, size_t card_len, uint64_t count, uint64_t load);

/* The exact planner: a plan whose cost is the least of all sheets that serve the show.
 *
 * Reads:     card.
 * Writes:    plan, work.
 * Asks for:  T bytes of plan, (m + 1) * T bytes of work.
 * Success:   the plan's cost. The first T bytes of plan hold the plan, the first (m + 1) * T bytes of
 *            work are zero, and all further bytes are as they were. An accepted card with buffers long
 *            enough is always planned.
 * Refusals:  1 to 8; 10 if plan_len or work_len is less than asked for. All bytes of plan and work are as
 *            they were. */
struct lamp_answer lamp_plan_exact(const uint8_t *card, size_t card_len, uint8_t *plan, size_t plan_len, uint8_t *work,
                                   size_t work_len);

/* The coarse planner: a plan of least cost among those with counts 0, the powers of two up to m, and m.
 * Its cost is at most twice the least cost of any sheet that serves the show.
 *
 * Reads:     card.
 * Writes:    plan, work.
 * Asks for:  T bytes of plan, 10 * T bytes of work.
 * Success:   the plan's cost. The first T bytes of plan hold the plan, the first 10 * T bytes of work are
 *            zero, and all further bytes are as they were. An accepted card with buffers long enough is
 *            always planned.
 * Refusals:  1 to 8; 10 if plan_len or work_len is less than asked for. All bytes of plan and work are as
 *            they were. */
struct lamp_answer lamp_plan_coarse(const uint8_t *card, size_t card_len, uint8_t *plan, size_t plan_len, uint8_t *work,
                                    size_t work_len);

/* The planner over a list: a plan of least cost among those that serve and whose counts are all in the list, as A
 * RACK THAT SWITCHES IN GROUPS above describes. After number 0 its cost is at most `ratio` times the least cost of
 * any sheet that serves the show.
 *
 * Reads:     card, list. list_len counts entries, and not bytes.
 * Writes:    plan, work.
 * Asks for:  T bytes of plan, list_len * T bytes of work.
 * Success:   the plan's cost. The first T bytes of plan hold the plan, the first list_len * T bytes of
 *            work are zero, and all further bytes are as they were. An accepted card, with a list and a
 *            ratio that keep the rules and with buffers long enough, is always planned.
 * Refusals:  1 to 8; then 18 if the list or the ratio breaks one of the rules, whatever T and the buffers
 *            are; then 10 if plan_len or work_len is less than asked for. All bytes of plan and work are as
 *            they were. */
struct lamp_answer lamp_plan_groups(const uint8_t *card, size_t card_len, const uint16_t *list, size_t list_len,
                                    uint64_t ratio, uint8_t *plan, size_t plan_len, uint8_t *work, size_t work_len);

/* Makes the sheet of a plan, from a planner or from anywhere else.
 *
 * Reads:     card, plan. plan_len must be T.
 * Writes:    sheet.
 * Asks for:  m * T bytes of sheet.
 * Success:   the plan's cost, which lamp_mark gives for this sheet too. The first m * T bytes of sheet
 *            hold the sheet, and all further bytes are as they were.
 * Refusals:  1 to 8; 10 if sheet_len is less than asked for; 11 if plan_len is not T; 12 if a count is
 *            above m; 13 if a count cannot serve its slot's load. All bytes of sheet are as they were. */
struct lamp_answer lamp_sheet(const uint8_t *card, size_t card_len, const uint8_t *plan, size_t plan_len,
                              uint8_t *sheet, size_t sheet_len);

/* Marks a sheet: checks that it serves the show, and gives its cost. Each step is charged F(step), as it
 * is handed in.
 *
 * Reads:     card, sheet. sheet_len must be m * T.
 * Writes:    nothing.
 * Success:   the sheet serves the show; its cost.
 * Refusals:  1 to 8; 11 if sheet_len is not m * T; 12 if a byte is from Q + 1 to 254; 13 if a slot has
 *            too little light, that is, the steps of its active modules sum to less than its load. More
 *            light than the load is accepted. */
struct lamp_answer lamp_mark(const uint8_t *card, size_t card_len, const uint8_t *sheet, size_t sheet_len);

/* Explains a sheet: tells where its points above the least cost went, in the three numbers that WHERE THE POINTS WENT
 * above describes. After a success all three are 0 exactly if no sheet that serves the show costs less.
 *
 * Reads:     card, sheet. sheet_len must be m * T.
 * Writes:    work.
 * Asks for:  (m + 1) * T bytes of work.
 * Success:   spread, swaps and counts. The first (m + 1) * T bytes of work are zero, and all further bytes
 *            are as they were. A sheet that lamp_mark accepts, with a work buffer long enough, is always
 *            explained, and no other sheet is.
 * Refusals:  1 to 8; 10 if work_len is less than asked for; 11, 12 and 13 as lamp_mark. spread, swaps and
 *            counts are 0, and all bytes of work are as they were. */
struct lamp_points lamp_explain(const uint8_t *card, size_t card_len, const uint8_t *sheet, size_t sheet_len,
                                uint8_t *work, size_t work_len);

/* The rounded count: the smallest count not below `count` that lamp_plan_coarse may use in a rack of
 * `modules` modules, which is 0, a power of two, or `modules` itself. It takes no card.
 *
 * The operators' course book prints it as a list of cases. The value of a case is its last number:
 *
 *   count        value
 *   0            0
 *   1            1
 *   2            2
 *   3 to 4       4
 *   5 to 8       8
 *   9 to 16      16
 *   17 to 32     32
 *   33 to 64     64
 *   65 to 128    128
 *   129 to 200   200
 *
 * Where the call does not refuse, the rounded count is the smaller of the case's value and `modules`. So
 * count 70 gives 128 in a rack of 200 modules and 100 in a rack of 100 modules, and a count above 128 gives
 * `modules`. It is proved that this is the smallest count described above.
 *
 * Reads:     nothing.
 * Writes:    nothing.
 * Success:   the rounded count, in the place of the cost.
 * Refusals:  3 if modules is outside 1 to 200; 12 if count is above modules. */
struct lamp_answer lamp_rounded_count(uint64_t count, uint64_t modules);

/* Makes the practice card of a start, by the draws that PRACTICE CARDS above describes.
 *
 * Reads:     nothing.
 * Writes:    card.
 * Asks for:  17 + 4(Q + 1) + 2T bytes of card, with Q and T of the practice card. This is at most
 *            LAMP_MAX_PRACTICE.
 * Success:   cost 0. The first 17 + 4(Q + 1) + 2T bytes of card hold the practice card, and all further
 *            bytes are as they were. A start above 0 with LAMP_MAX_PRACTICE bytes of card is never
 *            refused.
 * Refusals:  14 if start is 0; then 10 if card_len is less than asked for. All bytes of card are as they
 *            were. */
struct lamp_answer lamp_practice_card(uint32_t start, uint8_t *card, size_t card_len);

/* Writes F(0) to F(top) of the catalogue module as a card's fields, by the rule that THE CATALOGUE MODULE'S TABLE above
 * states.
 *
 * Reads:     nothing.
 * Writes:    table.
 * Asks for:  4(top + 1) bytes of table. This is at most LAMP_MAX_TABLE for a top from 1 to 200.
 * Success:   cost 0. The first 4(top + 1) bytes of table hold F(0) to F(top), each four bytes, the lowest
 *            byte first, and all further bytes are as they were. A top from 1 to 200 with LAMP_MAX_TABLE
 *            bytes of table is never refused.
 * Refusals:  3 if top is outside 1 to 200, with every buffer; 10 if table_len is less than asked for. All
 *            bytes of table are as they were. */
struct lamp_answer lamp_catalogue_table(uint64_t top, uint8_t *table, size_t table_len);

/* Opens a sitting: plans the card exactly, empties the seats and sets the allowance. The sitting handed in may be
 * unopened, open or closed; after a success it is replaced.
 *
 * Reads:     card.
 * Writes:    plan, work, seats.
 * Asks for:  T bytes of plan, (m + 1) * T bytes of work.
 * Success:   the least cost. plan and work are as lamp_plan_exact leaves them. The first LAMP_MAX_SEATS
 *            records of seats, or all if there are fewer, are all zero, whatever they held, and all
 *            further records are as they were. The sitting is open, with this allowance, 0 submissions
 *            used, and the least cost.
 * Refusals:  1 to 8; 10 if plan_len or work_len is less than asked for; 15 if caller is not 0; 17 if
 *            allowance is outside 1 to LAMP_MAX_ALLOWANCE. All bytes of plan and work and all records are
 *            as they were, and the sitting is given back as it was handed in. */
struct lamp_reply lamp_sitting_open(struct lamp_sitting sitting, uint16_t caller, uint64_t allowance,
                                    const uint8_t *card, size_t card_len, uint8_t *plan, size_t plan_len, uint8_t *work,
                                    size_t work_len, struct lamp_seat *seats, size_t seats_len);

/* Seats a candidate in the first empty record.
 *
 * Reads:     seats, the first LAMP_MAX_SEATS records.
 * Writes:    seats, one record.
 * Success:   cost 0. The first empty record holds the candidate's number, and its other fields are 0. All
 *            other records are as they were, and so is the sitting.
 * Refusals:  15 if caller is not 0 or the sitting is not open; 16 if candidate is 0, if the candidate is
 *            seated already, or if none of the first LAMP_MAX_SEATS records is empty. All records and the
 *            sitting are as they were. */
struct lamp_reply lamp_sitting_seat(struct lamp_sitting sitting, uint16_t caller, uint16_t candidate,
                                    struct lamp_seat *seats, size_t seats_len);

/* Closes a sitting, which ends seating and submitting.
 *
 * Reads:     nothing.
 * Writes:    nothing.
 * Success:   cost 0. The sitting is closed and otherwise as it was handed in.
 * Refusals:  15 if caller is not 0 or the sitting is not open, as when it is closed already. The sitting
 *            is as it was. */
struct lamp_reply lamp_sitting_close(struct lamp_sitting sitting, uint16_t caller);

/* Submits a candidate's sheet, which is marked as lamp_mark does. The candidate is the caller.
 *
 * Reads:     card, sheet, seats, the first LAMP_MAX_SEATS records. sheet_len must be m * T.
 * Writes:    seats, the candidate's record.
 * Success:   the sheet's cost. One submission more is used in the sitting. In the candidate's record
 *            lowest is this cost, or the lower one that was marked before, and marked is 1; candidate and
 *            reserved are as they were. All other records are as they were.
 * Refusals:  1 to 8; 15 if caller is 0 or the sitting is not open; 16 if the caller is not seated; 17 if
 *            the allowance is used up; then 11, 12 and 13 as lamp_mark. All records are as they were.
 *            After 11, 12 and 13 one submission more is used in the sitting. After every other refusal
 *            the sitting is as it was. */
struct lamp_reply lamp_sitting_submit(struct lamp_sitting sitting, uint16_t caller, const uint8_t *card,
                                      size_t card_len, const uint8_t *sheet, size_t sheet_len, struct lamp_seat *seats,
                                      size_t seats_len);

/* Reads the least cost of the card. A candidate reads it only after closing.
 *
 * Reads:     seats, the first LAMP_MAX_SEATS records. For caller 0 they do not matter, and the list may
 *            have length 0.
 * Writes:    nothing.
 * Success:   the least cost. The sitting is as it was.
 * Refusals:  15 if the sitting is unopened, or if caller is not 0 and it is not closed; 16 if caller is
 *            not 0 and not seated. The sitting is as it was. */
struct lamp_reply lamp_sitting_least(struct lamp_sitting sitting, uint16_t caller, const struct lamp_seat *seats,
                                     size_t seats_len);

/* Reads the lowest cost of a candidate's marked sheets, for the supervisor or for the candidate, also after closing.
 *
 * Reads:     seats, the first LAMP_MAX_SEATS records.
 * Writes:    nothing.
 * Success:   the lowest cost and marked 1, or cost 0 and marked 0 if no sheet of the candidate was marked.
 *            The sitting is as it was.
 * Refusals:  15 if the sitting is unopened, or if caller is neither 0 nor the candidate; 16 if candidate
 *            is 0 or not seated. The sitting is as it was. */
struct lamp_reply lamp_sitting_lowest(struct lamp_sitting sitting, uint16_t caller, uint16_t candidate,
                                      const struct lamp_seat *seats, size_t seats_len);

/* Reads how many submissions were used, also after closing.
 *
 * Reads:     nothing.
 * Writes:    nothing.
 * Success:   the submissions used, in the place of the cost. The sitting is as it was.
 * Refusals:  15 if caller is not 0 or the sitting is unopened. The sitting is as it was. */
struct lamp_reply lamp_sitting_used(struct lamp_sitting sitting, uint16_t caller);

#ifdef __cplusplus
}
#endif

#endif
