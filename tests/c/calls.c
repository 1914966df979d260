/* Each function, each of its codes but those of want of memory, and buffers that are too small or empty. */
#include "case.h"

/* 11; 22 and 33 on it; 44 and 55 on both; 66 alone */
static void fill(gix_history *history) {
    EXPECT(put(history, 0x11, 0, 0, 1) == GIX_OK);
    EXPECT(put(history, 0x22, 0x11, 0, 2) == GIX_OK);
    EXPECT(put(history, 0x33, 0x11, 0, 2) == GIX_OK);
    EXPECT(put(history, 0x44, 0x22, 0x33, 4) == GIX_OK);
    EXPECT(put(history, 0x55, 0x22, 0x33, 5) == GIX_OK);
    EXPECT(put(history, 0x66, 0, 0, 6) == GIX_OK);
    EXPECT(put(history, 0x66, 0x11, 0, 6) == GIX_ALREADY_THERE);
}

static void bases(gix_history *history) {
    gix_id four = id_of(0x44), five = id_of(0x55), six = id_of(0x66), out[3];
    size_t count = 99;
    out[1] = out[2] = id_of(0xEE);
    EXPECT(gix_history_merge_bases(history, &four, &five, 1, out, 3, &count) == GIX_OK);
    EXPECT(count == 2 && is_id(&out[0], 0x22) && is_id(&out[1], 0x33) && is_id(&out[2], 0xEE));
    out[1] = id_of(0xEE);
    EXPECT(gix_history_merge_bases(history, &four, &five, 1, out, 1, &count) == GIX_OK);
    EXPECT(count == 2 && is_id(&out[0], 0x22) && is_id(&out[1], 0xEE));
    EXPECT(gix_history_merge_bases(history, &four, &five, 1, out, 0, &count) == GIX_OK && count == 2);
    EXPECT(gix_history_merge_bases(history, &four, &six, 1, out, 3, &count) == GIX_NONE && count == 0);
    EXPECT(gix_history_merge_bases(history, &four, &five, 0, out, 3, &count) == GIX_OK);
    EXPECT(count == 1 && is_id(&out[0], 0x44));

    gix_id others[2];
    others[0] = five;
    others[1] = six;
    EXPECT(gix_history_octopus(history, &four, others, 1, out) == GIX_OK && is_id(out, 0x22));
    EXPECT(gix_history_octopus(history, &four, others, 2, out) == GIX_NONE && is_id(out, 0x22));
}

static void ancestors(gix_history *history) {
    gix_id one = id_of(0x11), two = id_of(0x22), three = id_of(0x33), five = id_of(0x55), lost = id_of(0x99);
    EXPECT(gix_history_is_ancestor(history, &one, &five) == GIX_OK);
    EXPECT(gix_history_is_ancestor(history, &five, &one) == GIX_NONE);
    EXPECT(gix_history_is_ancestor(history, &two, &three) == GIX_NONE);
    EXPECT(gix_history_is_ancestor(history, &two, &two) == GIX_OK);
    EXPECT(gix_history_is_ancestor(history, &lost, &lost) == GIX_NONE);
}

static void independent(gix_history *history) {
    gix_id ids[4], out[3];
    size_t count = 99;
    ids[0] = ids[3] = id_of(0x22);
    ids[1] = id_of(0x66);
    ids[2] = id_of(0x44);
    EXPECT(gix_history_independent(history, ids, 4, out, 3, &count) == GIX_OK);
    EXPECT(count == 2 && is_id(&out[0], 0x66) && is_id(&out[1], 0x44));
    out[1] = id_of(0xEE);
    EXPECT(gix_history_independent(history, ids, 4, out, 1, &count) == GIX_OK);
    EXPECT(count == 2 && is_id(&out[0], 0x66) && is_id(&out[1], 0xEE));
    EXPECT(gix_history_independent(history, ids, 0, out, 3, &count) == GIX_OK && count == 0);
}

static void counts(gix_history *history) {
    gix_id two = id_of(0x22), four = id_of(0x44), five = id_of(0x55), six = id_of(0x66), lost = id_of(0x99);
    size_t ahead = 99, behind = 99, count = 99;
    EXPECT(gix_history_ahead_behind(history, &four, &five, &ahead, &behind) == GIX_OK && ahead == 1 && behind == 1);
    EXPECT(gix_history_ahead_behind(history, &five, &two, &ahead, &behind) == GIX_OK && ahead == 2 && behind == 0);
    EXPECT(gix_history_ahead_behind(history, &two, &five, &ahead, &behind) == GIX_OK && ahead == 0 && behind == 2);
    EXPECT(gix_history_ahead_behind(history, &four, &six, &ahead, &behind) == GIX_OK && ahead == 4 && behind == 1);
    EXPECT(gix_history_ahead_behind(history, &lost, &six, &ahead, &behind) == GIX_OK && ahead == 0 && behind == 1);

    gix_span span;
    span.kind = GIX_MERGE;
    span.first = four;
    span.second = five;
    EXPECT(gix_history_count(history, &span, &count) == GIX_OK && count == 2);
    span.kind = GIX_INCLUDE;
    EXPECT(gix_history_count(history, &span, &count) == GIX_OK && count == 4);
    span.kind = GIX_EXCLUDE;
    EXPECT(gix_history_count(history, &span, &count) == GIX_OK && count == 0);
    span.kind = 6;
    count = 99;
    EXPECT(gix_history_count(history, &span, &count) == GIX_NO_KIND && count == 99);
}

static void newest(gix_history *history) {
    gix_id ids[5], out[4];
    size_t count = 99;
    ids[0] = ids[4] = id_of(0x33);
    ids[1] = id_of(0x99);
    ids[2] = id_of(0x22);
    ids[3] = id_of(0x66);
    out[1] = out[3] = id_of(0xEE);
    EXPECT(gix_history_newest_first(history, ids, 5, out, 4, &count) == GIX_OK && count == 3);
    EXPECT(is_id(&out[0], 0x66) && is_id(&out[1], 0x22) && is_id(&out[2], 0x33) && is_id(&out[3], 0xEE));
    out[1] = id_of(0xEE);
    EXPECT(gix_history_newest_first(history, ids, 5, out, 1, &count) == GIX_OK && count == 3);
    EXPECT(is_id(&out[0], 0x66) && is_id(&out[1], 0xEE));
    EXPECT(gix_history_newest_first(history, ids, 0, out, 4, &count) == GIX_OK && count == 0);
}

/* Puts in the commit of the criss-cross that a question wanted, and expects that it was not there. */
static void give(gix_history *history) {
    gix_id wanted = id_of(0xEE);
    EXPECT(gix_history_wanted(history, &wanted) == GIX_OK);
    switch (wanted.bytes[0]) {
    case 0x11:
        EXPECT(put(history, 0x11, 0, 0, 1) == GIX_OK);
        break;
    case 0x22:
    case 0x33:
        EXPECT(put(history, wanted.bytes[0], 0x11, 0, 2) == GIX_OK);
        break;
    case 0x44:
    case 0x55:
        EXPECT(put(history, wanted.bytes[0], 0x22, 0x33, wanted.bytes[0] & 0xF) == GIX_OK);
        break;
    default:
        EXPECT(wanted.bytes[0] == 0x66 && put(history, 0x66, 0, 0, 6) == GIX_OK);
    }
}

/* A partial history wants one commit after another, until it has an answer. Outputs are unchanged before. */
static void partial(void) {
    gix_history *history = NULL;
    gix_id one = id_of(0x11), two = id_of(0x22), four = id_of(0x44), five = id_of(0x55), six = id_of(0x66);
    gix_id out[3], wanted = id_of(0xEE);
    size_t count = 99, ahead = 99, behind = 99;
    int32_t code;
    EXPECT(gix_history_new(0, &history) == GIX_OK);
    EXPECT(gix_history_wanted(history, &wanted) == GIX_NONE && is_id(&wanted, 0xEE));
    EXPECT(gix_history_reaches(history, &four, &four) == 0);
    gix_history_set_partial(history, true);
    EXPECT(gix_history_wanted(history, &wanted) == GIX_NONE && is_id(&wanted, 0xEE));
    EXPECT(gix_history_reaches(history, &four, &four) == GIX_WANTS);
    EXPECT(gix_history_wanted(history, &wanted) == GIX_OK && is_id(&wanted, 0x44));
    while ((code = gix_history_is_ancestor(history, &two, &four)) == GIX_WANTS)
        give(history);
    EXPECT(code == GIX_OK && gix_history_len(history) < 5);
    while ((code = gix_history_merge_bases(history, &four, &five, 1, out, 3, &count)) == GIX_WANTS) {
        EXPECT(count == 99);
        give(history);
    }
    EXPECT(code == GIX_OK && count == 2 && is_id(&out[0], 0x22) && is_id(&out[1], 0x33));
    while ((code = gix_history_octopus(history, &four, &six, 1, out)) == GIX_WANTS)
        give(history);
    EXPECT(code == GIX_NONE && is_id(&out[0], 0x22));
    while ((code = gix_history_ahead_behind(history, &five, &one, &ahead, &behind)) == GIX_WANTS)
        give(history);
    EXPECT(code == GIX_OK && ahead == 3 && behind == 0 && gix_history_len(history) == 6);
    gix_history_set_partial(history, false);
    EXPECT(gix_history_wanted(history, &wanted) == GIX_NONE);
    EXPECT(gix_history_merge_bases(history, &four, &five, 1, out, 3, &count) == GIX_OK && count == 2);
    gix_history_free(history);
}

/* The same for descriptions, revisions, lists and counts. */
static void partial_texts(void) {
    gix_history *history = NULL;
    gix_id two = id_of(0x22), three = id_of(0x33), five = id_of(0x55), six = id_of(0x66), ids[2], out[3];
    gix_name name;
    gix_how how = GIX_HOW_INIT;
    gix_span span = {6, six, six};
    gix_fault fault = {99, 99, 99};
    uint8_t text[20];
    size_t len = 99, count = 99;
    uint32_t depth = 99;
    int32_t code;
    name.id = two;
    name.text = text_of("v2");
    name.text_len = 2;
    EXPECT(gix_history_new(0, &history) == GIX_OK);
    gix_history_set_partial(history, true);
    EXPECT(gix_history_name(history, text_of("main"), 4, &five) == GIX_OK);
    while ((code = gix_history_rev_parse(history, text_of("main~1"), 6, 0, 0, &span, &fault)) == GIX_WANTS) {
        EXPECT(span.kind == 6 && fault.number == 99);
        give(history);
    }
    EXPECT(code == GIX_OK && span.kind == GIX_INCLUDE && is_id(&span.first, 0x22));
    while ((code = gix_history_resolve(history, text_of("main~3"), 6, 0, 0, &span, &fault)) == GIX_WANTS)
        give(history);
    EXPECT(code == GIX_FAULT + 24 && fault.number == 24 && is_id(&span.first, 0x22) && gix_history_len(history) == 3);
    while ((code = gix_history_describe(history, &five, &name, 1, &how, text, sizeof text, &len, &depth)) == GIX_WANTS) {
        EXPECT(len == 99 && depth == 99);
        give(history);
    }
    EXPECT(code == GIX_OK && len == 13 && memcmp(text, "v2-2-g5555555", len) == 0 && depth == 2);
    ids[0] = six;
    ids[1] = three;
    while ((code = gix_history_newest_first(history, ids, 2, out, 3, &count)) == GIX_WANTS)
        give(history);
    EXPECT(code == GIX_OK && count == 2 && is_id(&out[0], 0x66) && is_id(&out[1], 0x33));
    while ((code = gix_history_independent(history, ids, 2, out, 3, &count)) == GIX_WANTS)
        give(history);
    EXPECT(code == GIX_OK && count == 2);
    span.first = id_of(0x44);
    while ((code = gix_history_count(history, &span, &count)) == GIX_WANTS) {
        EXPECT(count == 2);
        give(history);
    }
    EXPECT(code == GIX_OK && count == 4);
    EXPECT(gix_history_list(history, &span, NULL, 0, out, 3, &count) == GIX_OK && count == 3 && is_id(&out[0], 0x11));
    span.kind = 6;
    EXPECT(gix_history_count(history, &span, &count) == GIX_NO_KIND);
    span.kind = GIX_INCLUDE;
    span.first = id_of(0x99);
    EXPECT(gix_history_list(history, &span, NULL, 0, out, 3, &count) == GIX_WANTS && count == 3);
    EXPECT(gix_history_wanted(history, out) == GIX_OK && is_id(&out[0], 0x99));
    gix_history_free(history);
}

/* A history by rounds: what is missing is put in until nothing is. */
static void rounds(void) {
    gix_history *history = NULL;
    gix_id after = id_of(0), out[3];
    size_t count = 99;
    EXPECT(gix_history_new(0, &history) == GIX_OK);
    EXPECT(gix_history_missing(history, &after, 0, out, 3, &count) == GIX_OK && count == 0);
    EXPECT(put(history, 0x44, 0x33, 0x22, 4) == GIX_OK);
    EXPECT(put(history, 0x55, 0x22, 0x33, 5) == GIX_OK);
    EXPECT(put(history, 0x55, 0x77, 0, 5) == GIX_ALREADY_THERE);
    out[2] = id_of(0xEE);
    EXPECT(gix_history_missing(history, &after, 0, out, 3, &count) == GIX_OK && count == 2);
    EXPECT(is_id(&out[0], 0x22) && is_id(&out[1], 0x33) && is_id(&out[2], 0xEE));
    EXPECT(gix_history_missing(history, &after, 0, out, 1, &count) == GIX_OK && count == 1 && is_id(&out[0], 0x22));
    after = out[0];
    EXPECT(gix_history_missing(history, &after, 1, out, 1, &count) == GIX_OK && count == 1 && is_id(&out[0], 0x33));
    after = out[0];
    EXPECT(gix_history_missing(history, &after, 1, out, 1, &count) == GIX_OK && count == 0);
    EXPECT(put(history, 0x22, 0x11, 0, 2) == GIX_OK);
    EXPECT(gix_history_missing(history, &after, 0, out, 3, &count) == GIX_OK && count == 2);
    EXPECT(is_id(&out[0], 0x11) && is_id(&out[1], 0x33));
    EXPECT(put(history, 0x33, 0x11, 0, 2) == GIX_OK);
    EXPECT(put(history, 0x11, 0, 0, 1) == GIX_OK);
    EXPECT(gix_history_missing(history, &after, 0, out, 3, &count) == GIX_OK && count == 0);
    gix_history_free(history);
}

/* A list stays as it is, whatever happens to its history. */
static void lists(void) {
    gix_history *history = NULL;
    gix_ids *missing = NULL, *listed = NULL, *none = NULL;
    gix_id four = id_of(0x44), out[3];
    gix_span span = {GIX_INCLUDE, four, four};
    EXPECT(gix_history_new(0, &history) == GIX_OK);
    EXPECT(gix_history_missing_all(history, &none) == GIX_OK && gix_ids_len(none) == 0);
    EXPECT(put(history, 0x44, 0x33, 0x22, 4) == GIX_OK);
    EXPECT(gix_history_missing_all(history, &missing) == GIX_OK && gix_ids_len(missing) == 2);
    EXPECT(put(history, 0x22, 0x11, 0, 2) == GIX_OK);
    EXPECT(gix_history_list_all(history, &span, &listed) == GIX_OK && gix_ids_len(listed) == 2);
    EXPECT(put(history, 0x33, 0, 0, 3) == GIX_OK);
    out[2] = id_of(0xEE);
    EXPECT(gix_ids_read(missing, 0, out, 3) == 2 && is_id(&out[0], 0x22) && is_id(&out[1], 0x33) && is_id(&out[2], 0xEE));
    EXPECT(gix_ids_read(missing, 1, out, 3) == 1 && is_id(&out[0], 0x33) && is_id(&out[1], 0x33));
    EXPECT(gix_ids_read(listed, 0, out, 1) == 1 && is_id(&out[0], 0x22) && is_id(&out[1], 0x33));
    EXPECT(gix_ids_read(missing, 2, out, 3) == 0 && gix_ids_read(missing, SIZE_MAX, out, 3) == 0);
    EXPECT(gix_ids_read(missing, 0, NULL, 0) == 0 && gix_ids_read(none, 0, out, 3) == 0 && is_id(&out[0], 0x22));
    gix_ids_free(missing);
    missing = NULL;
    span.kind = 6;
    EXPECT(gix_history_list_all(history, &span, &missing) == GIX_NO_KIND && missing == NULL);
    gix_history_set_partial(history, true);
    span.kind = GIX_INCLUDE;
    EXPECT(gix_history_list_all(history, &span, &missing) == GIX_WANTS && missing == NULL);
    EXPECT(gix_history_wanted(history, out) == GIX_OK && is_id(&out[0], 0x11));
    gix_history_free(history);
    EXPECT(gix_ids_read(listed, 1, out, 3) == 1 && is_id(&out[0], 0x44));
    gix_ids_free(listed);
    gix_ids_free(none);
    gix_ids_free(NULL);
}

/* A parent that comes after two walks have met its child. */
static void late_parent(gix_history *history) {
    gix_id child = id_of(0x78), one = id_of(0x11), out[1];
    size_t count = 99;
    EXPECT(put(history, 0x78, 0x77, 0, 8) == GIX_OK);
    EXPECT(gix_history_merge_bases(history, &child, &one, 1, out, 1, &count) == GIX_NONE);
    EXPECT(gix_history_merge_bases(history, &child, &one, 1, out, 1, &count) == GIX_NONE);
    EXPECT(put(history, 0x77, 0x22, 0, 7) == GIX_OK);
    EXPECT(gix_history_merge_bases(history, &child, &one, 1, out, 1, &count) == GIX_OK);
    EXPECT(count == 1 && is_id(out, 0x11));
}

static void descriptions(gix_history *history) {
    gix_id four = id_of(0x44), six = id_of(0x66), lost = id_of(0x99);
    gix_name names[2];
    names[0].id = names[1].id = id_of(0x11);
    names[0].text = text_of("v1.0");
    names[0].text_len = 4;
    names[1].text = text_of("second");
    names[1].text_len = 6;
    gix_how how = GIX_HOW_INIT;
    uint8_t text[32];
    size_t len = 99;
    uint32_t depth = 99;
    memset(text, '.', sizeof text);
    EXPECT(gix_history_describe(history, &four, names, 2, &how, text, sizeof text, &len, &depth) == GIX_OK);
    EXPECT(len == 15 && memcmp(text, "v1.0-3-g4444444.", 16) == 0 && depth == 3);
    memset(text, '.', sizeof text);
    EXPECT(gix_history_describe(history, &four, names, 2, &how, text, 4, &len, &depth) == GIX_OK);
    EXPECT(len == 15 && memcmp(text, "v1.0.", 5) == 0);
    len = depth = 99;
    EXPECT(gix_history_describe(history, &six, names, 2, &how, text, 4, &len, &depth) == GIX_NONE);
    EXPECT(gix_history_describe(history, &lost, names, 2, &how, text, 4, &len, &depth) == GIX_NO_COMMIT);
    EXPECT(len == 99 && depth == 99 && memcmp(text, "v1.0.", 5) == 0);
    how.fallback_to_id = true;
    EXPECT(gix_history_describe(history, &six, names, 0, &how, text, 0, &len, &depth) == GIX_OK && len == 7 && depth == 0);
    how.long_form = true;
    EXPECT(gix_history_describe(history, &names[0].id, names, 1, &how, text, sizeof text, &len, &depth) == GIX_OK);
    EXPECT(len == 15 && memcmp(text, "v1.0-0-g1111111", 15) == 0);

    /* Without digits: the name alone, or the whole id. */
    how.hex_len = 0;
    EXPECT(gix_history_describe(history, &four, names, 2, &how, text, sizeof text, &len, &depth) == GIX_OK);
    EXPECT(len == 4 && memcmp(text, "v1.0", 4) == 0 && depth == 3);
    EXPECT(gix_history_describe(history, &six, NULL, 0, &how, text, sizeof text, &len, &depth) == GIX_OK);
    EXPECT(len == 40 && memcmp(text, "6666666666", 10) == 0 && depth == 0);
    how.size++;
    len = 99;
    EXPECT(gix_history_describe(history, &four, names, 2, &how, text, sizeof text, &len, &depth) == GIX_NO_HOW && len == 99);
}

/* Of two names that are equally near the smaller one is taken, or in git's order the one that is visited first. */
static void near_names(gix_history *history) {
    gix_id four = id_of(0x44);
    gix_name names[2];
    gix_how how = GIX_HOW_INIT;
    uint8_t text[12];
    size_t len = 0;
    uint32_t depth = 0;
    names[0].id = id_of(0x22);
    names[0].text = text_of("b");
    names[1].id = id_of(0x33);
    names[1].text = text_of("a");
    names[0].text_len = names[1].text_len = 1;
    EXPECT(gix_history_describe(history, &four, names, 2, &how, text, sizeof text, &len, &depth) == GIX_OK);
    EXPECT(len == 12 && memcmp(text, "a-2-g4444444", 12) == 0 && depth == 2);
    how.git_order = true;
    EXPECT(gix_history_describe(history, &four, names, 2, &how, text, sizeof text, &len, &depth) == GIX_OK);
    EXPECT(len == 12 && memcmp(text, "b-2-g4444444", 12) == 0 && depth == 2);
}

/* A table has copies of the texts, and is as it was after each call. */
static void tables(gix_history *history) {
    gix_id one = id_of(0x11), four = id_of(0x44), six = id_of(0x66), lost = id_of(0x99);
    uint8_t given[10], text[32];
    gix_name names[2];
    gix_names *table = NULL, *none = NULL;
    gix_how how = GIX_HOW_INIT, other = GIX_HOW_INIT;
    size_t len = 99;
    uint32_t depth = 99;
    int turn;
    memcpy(given, "v1.0second", 10);
    names[0].id = names[1].id = one;
    names[0].text = given;
    names[0].text_len = 4;
    names[1].text = given + 4;
    names[1].text_len = 6;
    EXPECT(gix_names_new(names, 2, 7, &table) == GIX_OK && gix_names_new(NULL, 0, 7, &none) == GIX_OK);
    memset(given, '?', sizeof given);
    other.size++;
    for (turn = 0; turn < 2; turn++) {
        len = depth = 99;
        EXPECT(gix_history_describe_by(history, &four, table, &other, text, sizeof text, &len, &depth) == GIX_NO_HOW);
        EXPECT(gix_history_describe_by(history, &lost, table, &how, text, sizeof text, &len, &depth) == GIX_NO_COMMIT);
        EXPECT(gix_history_describe_by(history, &six, table, &how, text, sizeof text, &len, &depth) == GIX_NONE);
        EXPECT(gix_history_describe_by(history, &four, none, &how, text, sizeof text, &len, &depth) == GIX_NONE);
        EXPECT(len == 99 && depth == 99);
        memset(text, '.', sizeof text);
        EXPECT(gix_history_describe_by(history, &four, table, &how, text, sizeof text, &len, &depth) == GIX_OK);
        EXPECT(len == 15 && memcmp(text, "v1.0-3-g4444444.", 16) == 0 && depth == 3);
        memset(text, '.', sizeof text);
        EXPECT(gix_history_describe_by(history, &one, table, &how, text, 2, &len, &depth) == GIX_OK);
        EXPECT(len == 4 && memcmp(text, "v1.", 3) == 0 && depth == 0);
    }
    gix_names_free(table);
    gix_names_free(none);
    gix_names_free(NULL);
}

static void texts(gix_history *history) {
    gix_id four = id_of(0x44), five = id_of(0x55), out[4];
    gix_span span;
    gix_fault fault = {9, 9, 9};
    size_t count = 99;
    EXPECT(gix_history_name(history, text_of("main"), 4, &five) == GIX_OK);
    EXPECT(gix_history_name(history, text_of("main"), 4, &four) == GIX_OK);
    EXPECT(gix_history_resolve(history, text_of("main~1..5555"), 12, 0, 0, &span, &fault) == GIX_OK);
    EXPECT(span.kind == GIX_RANGE && is_id(&span.first, 0x22) && is_id(&span.second, 0x55));
    EXPECT(fault.number == 9 && fault.start == 9 && fault.length == 9);
    EXPECT(gix_history_resolve(history, text_of("main..nowhere~2"), 15, 0, 0, &span, &fault) == GIX_FAULT + 12);
    EXPECT(fault.number == 12 && fault.start == 6 && fault.length == 9);
    EXPECT(gix_history_resolve(history, text_of("main~x"), 6, 0, 0, &span, &fault) == GIX_FAULT + 4);
    EXPECT(fault.number == 4 && fault.start == 5 && fault.length == 1);
    EXPECT(gix_history_resolve(history, text_of("main~9"), 6, 0, 0, &span, &fault) == GIX_FAULT + 24);
    EXPECT(fault.number == 24 && fault.start == 5 && fault.length == 1);
    EXPECT(gix_history_resolve(history, text_of("@"), 1, 0, 0, &span, &fault) == GIX_FAULT + 2);
    EXPECT(fault.number == 2 && fault.start == 0 && fault.length == 0);
    EXPECT(span.kind == GIX_RANGE && is_id(&span.first, 0x22));

    /* Digits that are a name, too. */
    EXPECT(gix_history_name(history, text_of("5555"), 4, &four) == GIX_OK);
    EXPECT(gix_history_rev_parse(history, text_of("^5555"), 5, 0, 0, &span, &fault) == GIX_OK);
    EXPECT(span.kind == GIX_EXCLUDE && is_id(&span.first, 0x44) && is_id(&span.second, 0x44));
    EXPECT(gix_history_rev_parse(history, text_of("main^{tree}"), 11, 0, 0, &span, &fault) == GIX_FAULT + 25);
    EXPECT(gix_history_resolve(history, text_of("main~1..5555"), 12, 0, 0, &span, &fault) == GIX_OK);

    EXPECT(gix_history_list(history, &span, out, 0, out, 4, &count) == GIX_OK);
    EXPECT(count == 2 && is_id(&out[0], 0x33) && is_id(&out[1], 0x55));
    EXPECT(gix_history_list(history, &span, &out[0], 1, &out[2], 2, &count) == GIX_OK);
    EXPECT(count == 1 && is_id(&out[2], 0x55));
    EXPECT(gix_history_list(history, &span, out, 0, out, 0, &count) == GIX_OK && count == 0);
    span.kind = 6;
    count = 99;
    EXPECT(gix_history_list(history, &span, out, 0, out, 4, &count) == GIX_NO_KIND && count == 99);
}

static void commits(gix_history *history) {
    gix_id one = id_of(0x11), four = id_of(0x44), lost = id_of(0x99), parents[3];
    gix_commit commit = {9, 9, true, 9};
    EXPECT(gix_history_len(history) == 6);
    parents[1] = parents[2] = id_of(0xEE);
    EXPECT(gix_history_commit(history, &lost, &commit, parents, 3) == GIX_NONE && commit.time == 9);
    EXPECT(gix_history_commit(history, &four, &commit, parents, 1) == GIX_OK);
    EXPECT(commit.time == 4 && commit.parents_len == 2 && is_id(&parents[0], 0x22) && is_id(&parents[1], 0xEE));
    EXPECT(gix_history_commit(history, &four, &commit, parents, 3) == GIX_OK && commit.parents_len == 2);
    EXPECT(is_id(&parents[0], 0x22) && is_id(&parents[1], 0x33) && is_id(&parents[2], 0xEE));
    EXPECT(gix_history_commit(history, &one, &commit, NULL, 0) == GIX_OK && commit.time == 1 && commit.parents_len == 0);
    EXPECT(gix_history_reaches(history, &four, &one) == 1);
    EXPECT(gix_history_reaches(history, &one, &four) == 0);
    EXPECT(gix_history_reaches(history, &lost, &lost) == 0);
}

/* A commit by its bytes, as git has them. */
static void objects(void) {
    static const char content[] = "tree 4b825dc642cb6eb9a060e54bf8d69288fbee4904\n"
                                  "parent 1111111111111111111111111111111111111111\n"
                                  "author a <a@b> 5 +0000\ncommitter a <a@b> 7 +0000\n\nm\n";
    gix_history *history = NULL;
    gix_id id, other, parent;
    gix_commit commit;
    size_t count = 99, len = sizeof content - 1;
    EXPECT(gix_id_read(&id, "163ba4c0c966e03dfae90637407a44f5437f71f8", 40));
    EXPECT(gix_history_new(0, &history) == GIX_OK);
    EXPECT(gix_history_insert_object(history, &id, text_of(content), len - 1) == GIX_ALTERED);
    EXPECT(gix_history_insert_object(history, &id, NULL, 0) == GIX_ALTERED);
    EXPECT(gix_history_len(history) == 0);
    EXPECT(gix_history_insert_object(history, &id, text_of(content), len) == GIX_OK);
    EXPECT(gix_history_insert_object(history, &id, text_of(content), len) == GIX_ALREADY_THERE);
    EXPECT(gix_history_len(history) == 1);
    EXPECT(gix_history_commit(history, &id, &commit, &parent, 1) == GIX_OK);
    EXPECT(commit.time == 7 && !commit.has_generation && commit.parents_len == 1 && is_id(&parent, 0x11));
    EXPECT(gix_history_missing(history, NULL, 0, &other, 1, &count) == GIX_OK && count == 1 && is_id(&other, 0x11));

    /* No more than the line of a tree, and no commit at all. */
    EXPECT(gix_id_read(&other, "e43fc45fe9861f11199bfc430939749be99df922", 40));
    EXPECT(gix_history_insert_object(history, &other, text_of(content), 46) == GIX_MISSHAPEN);
    EXPECT(gix_id_read(&other, "B584DC718100df6c37020ad91e1b82d043e16312", 40));
    EXPECT(gix_history_insert_object(history, &other, text_of("no commit\n"), 10) == GIX_MISSHAPEN);
    EXPECT(gix_history_len(history) == 1);
    gix_history_free(history);
}

static void digits(void) {
    gix_id id = id_of(0xEE);
    char text[42];
    memset(text, '.', sizeof text);
    EXPECT(!gix_id_read(&id, "163ba4c0c966e03dfae90637407a44f5437f71f8", 39) && is_id(&id, 0xEE));
    EXPECT(!gix_id_read(&id, "163ba4c0c966e03dfae90637407a44f5437f71g8", 40) && is_id(&id, 0xEE));
    EXPECT(!gix_id_read(&id, NULL, 0));
    EXPECT(gix_id_read(&id, "0123456789abcdefABCDEF7aC07a44f5437f71f8", 40));
    EXPECT(id.bytes[0] == 1 && id.bytes[7] == 0xEF && id.bytes[8] == 0xAB && id.bytes[19] == 0xF8);
    gix_id_write(text, &id);
    EXPECT(memcmp(text, "0123456789abcdefabcdef7ac07a44f5437f71f8\0.", 42) == 0);
}

static void codes(void) {
    EXPECT(gix_version() == GIX_VERSION_NUMBER);
    EXPECT(strcmp(gix_strerror(GIX_NO_COMMIT), "the history does not have the commit") == 0);
    EXPECT(strcmp(gix_strerror(GIX_FAULT + 14), "a brace is never closed") == 0);
    for (int32_t code = -20; code < 130; code++) {
        int known = code == -1 || code == -2 || (code >= -12 && code <= -4) || code == 0 || code == 1 || (code > 100 && code < 128);
        EXPECT((strcmp(gix_strerror(code), "unknown code") != 0) == known);
    }
}

/* Ids that share digits. */
static void abbreviations(void) {
    gix_history *history = NULL;
    gix_id one = id_of(0x11), near = id_of(0x11), far = id_of(0x11), other = id_of(0x22);
    near.bytes[19] = 0x12;
    far.bytes[3] = 0x1F;
    EXPECT(gix_history_new(0, &history) == GIX_OK);
    EXPECT(gix_history_abbreviate(history, &one, 0) == 4);
    EXPECT(gix_history_insert(history, &one, NULL, 0, 1, false, 0) == GIX_OK);
    EXPECT(gix_history_insert(history, &other, NULL, 0, 1, false, 0) == GIX_OK);
    EXPECT(gix_history_abbreviate(history, &one, 0) == 4 && gix_history_abbreviate(history, &one, 7) == 7);
    EXPECT(gix_history_abbreviate(history, &one, 40) == 40 && gix_history_abbreviate(history, &one, SIZE_MAX) == 40);
    EXPECT(gix_history_insert(history, &far, NULL, 0, 1, false, 0) == GIX_OK);
    EXPECT(gix_history_abbreviate(history, &one, 5) == 8 && gix_history_abbreviate(history, &far, 5) == 8);
    EXPECT(gix_history_abbreviate(history, &near, 5) == 40);
    EXPECT(gix_history_insert(history, &near, NULL, 0, 1, false, 0) == GIX_OK);
    EXPECT(gix_history_abbreviate(history, &one, 5) == 40 && gix_history_abbreviate(history, &far, 5) == 8);
    EXPECT(gix_history_abbreviate(history, &other, 5) == 5);
    gix_history_free(history);
}

static void names(gix_history *history) {
    gix_id four = id_of(0x44);
    gix_span span;
    gix_fault fault;
    EXPECT(gix_history_unname(history, text_of("topic"), 5) == GIX_NONE);
    EXPECT(gix_history_name(history, text_of("topic"), 5, &four) == GIX_OK);
    EXPECT(gix_history_name(history, text_of("topics"), 6, &four) == GIX_OK);
    EXPECT(gix_history_resolve(history, text_of("topic"), 5, 0, 0, &span, &fault) == GIX_OK);
    EXPECT(gix_history_unname(history, text_of("topic"), 5) == GIX_OK);
    EXPECT(gix_history_unname(history, text_of("topic"), 5) == GIX_NONE);
    EXPECT(gix_history_resolve(history, text_of("topic"), 5, 0, 0, &span, &fault) == GIX_FAULT + 12);
    EXPECT(gix_history_resolve(history, text_of("topics"), 6, 0, 0, &span, &fault) == GIX_OK);
}

/* NULL with the length 0, in the place of each array. */
static void empty(void) {
    gix_history *history = NULL;
    gix_id one = id_of(0x11), out;
    gix_bytes nothing = {NULL, 0};
    gix_how how = GIX_HOW_INIT;
    gix_span span = {GIX_INCLUDE, one, one};
    gix_fault fault;
    size_t count = 99;
    uint32_t depth = 99;
    EXPECT(gix_history_open(NULL, 0, 0, &history) == GIX_NO_GRAPH);
    EXPECT(gix_history_open_chain(NULL, 0, 0, &history) == GIX_NO_GRAPH);
    EXPECT(gix_history_open_chain(&nothing, 1, 0, &history) == GIX_NO_GRAPH && history == NULL);
    EXPECT(gix_graph_fault(NULL, 0) == GIX_GRAPH_TOO_SHORT);
    EXPECT(gix_history_new(0, &history) == GIX_OK);
    EXPECT(gix_history_insert(history, &one, NULL, 0, 1, false, 0) == GIX_OK);
    EXPECT(gix_history_merge_bases(history, &one, NULL, 0, NULL, 0, &count) == GIX_OK && count == 1);
    EXPECT(gix_history_octopus(history, &one, NULL, 0, &out) == GIX_OK && is_id(&out, 0x11));
    EXPECT(gix_history_independent(history, NULL, 0, NULL, 0, &count) == GIX_OK && count == 0);
    EXPECT(gix_history_newest_first(history, NULL, 0, NULL, 0, &count) == GIX_OK && count == 0);
    EXPECT(gix_history_missing(history, NULL, 0, NULL, 0, &count) == GIX_OK && count == 0);
    EXPECT(gix_history_describe(history, &one, NULL, 0, &how, NULL, 0, &count, &depth) == GIX_NONE);
    how.fallback_to_id = true;
    EXPECT(gix_history_describe(history, &one, NULL, 0, &how, NULL, 0, &count, &depth) == GIX_OK && count == 7);
    EXPECT(gix_history_name(history, NULL, 0, &one) == GIX_OK);
    EXPECT(gix_history_unname(history, NULL, 0) == GIX_OK);
    EXPECT(gix_history_resolve(history, NULL, 0, 0, 0, &span, &fault) == GIX_FAULT + 5);
    EXPECT(gix_history_rev_parse(history, NULL, 0, 0, 0, &span, &fault) == GIX_FAULT + 5);
    EXPECT(gix_history_list(history, &span, NULL, 0, NULL, 0, &count) == GIX_OK && count == 0);
    gix_history_free(history);
}

/* An opened history of the criss-cross, to which newer commits are added. It is freed. */
static void over_files(gix_history *history) {
    gix_id four = id_of(0x44), newer = id_of(0x79), out[3];
    size_t count = 99;
    EXPECT(gix_history_len(history) == 5);
    EXPECT(gix_history_missing(history, &four, 0, out, 3, &count) == GIX_OK && count == 0);
    EXPECT(put(history, 0x55, 0x11, 0, 5) == GIX_ALREADY_THERE);
    EXPECT(put(history, 0x66, 0, 0, 6) == GIX_OK);
    bases(history);
    ancestors(history);
    independent(history);
    counts(history);
    newest(history);
    commits(history);
    names(history);
    late_parent(history);
    descriptions(history);
    near_names(history);
    tables(history);
    texts(history);
    EXPECT(put(history, 0x79, 0x55, 0x99, 9) == GIX_OK);
    EXPECT(gix_history_merge_bases(history, &newer, &four, 1, out, 3, &count) == GIX_OK);
    EXPECT(count == 2 && is_id(&out[0], 0x22) && is_id(&out[1], 0x33));
    EXPECT(gix_history_missing(history, &four, 0, out, 3, &count) == GIX_OK && count == 1 && is_id(out, 0x99));
    gix_history_free(history);
}

/* A history over a file and newer commits, and bytes that are none. */
static void opened(void) {
    uint8_t file[FILE_OF_FIVE];
    gix_history *history = NULL;
    write_file(file);
    for (size_t len = 0; len < sizeof file; len++)
        EXPECT(gix_history_open(file, len, 0, &history) == GIX_NO_GRAPH);
    file[ROWS_OF_FIVE + 36 * 3 + 23] = 5;
    EXPECT(gix_history_open(file, sizeof file, 0, &history) == GIX_NO_GRAPH);
    EXPECT(gix_graph_fault(file, sizeof file) == GIX_GRAPH_PARENT);
    file[7] = 1;
    EXPECT(gix_graph_fault(file, sizeof file) == GIX_GRAPH_BASE_GRAPHS);
    file[0] = 'c';
    EXPECT(gix_graph_fault(file, sizeof file) == GIX_GRAPH_SIGNATURE);
    write_file(file);
    EXPECT(gix_graph_fault(file, sizeof file) == 0);
    write_number(file + ROWS_OF_FIVE + 36 * 3 + 28, 2 << 2);
    EXPECT(gix_history_open(file, sizeof file, 0, &history) == GIX_NO_LEVELS && history == NULL);

    write_file(file);
    EXPECT(gix_history_open(file, sizeof file, 0, &history) == GIX_OK);
    memset(file, 0xEE, sizeof file);
    over_files(history);
}

/* How files of the chain are opened: their places in it. What is opened has `commits` commits. */
static int32_t open_places(const chain_of_three *chain, const int *places, size_t count, size_t commits) {
    gix_bytes files[4];
    gix_history *history = NULL;
    for (size_t i = 0; i < count; i++)
        files[i] = chain->files[places[i]];
    int32_t code = gix_history_open_chain(files, count, 0, &history);
    EXPECT(code == GIX_OK ? gix_history_len(history) == commits : history == NULL);
    gix_history_free(history);
    return code;
}

/* A history over a chain of files and newer commits, and files that are none. */
static void opened_chain(void) {
    static chain_of_three chain;
    static const int all[3] = {0, 1, 2}, swapped[3] = {0, 2, 1}, skipped[2] = {0, 2}, upper[2] = {1, 2}, twice[3] = {0, 1, 1}, twice_low[2] = {0, 0};
    gix_history *history = NULL;
    write_chain(&chain);
    for (size_t count = 1; count <= 3; count++)
        EXPECT(open_places(&chain, all, count, 2 * count - 1) == GIX_OK);
    EXPECT(open_places(&chain, swapped, 3, 0) == GIX_NO_GRAPH);
    EXPECT(open_places(&chain, skipped, 2, 0) == GIX_NO_GRAPH);
    EXPECT(open_places(&chain, upper, 1, 0) == GIX_NO_GRAPH && open_places(&chain, upper, 2, 0) == GIX_NO_GRAPH);
    EXPECT(gix_graph_fault(chain.files[1].bytes, chain.files[1].bytes_len) == GIX_GRAPH_BASE_GRAPHS);
    EXPECT(open_places(&chain, twice, 3, 0) == GIX_NO_GRAPH && open_places(&chain, twice_low, 2, 0) == GIX_NO_GRAPH);
    /* Each file is looked at to its end. The hash of the lowest one is only compared with what the others say. */
    for (int place = 1; place < 3; place++)
        for (size_t at = 0; at < chain.files[place].bytes_len; at++) {
            chain.bytes[place][at] ^= 1;
            EXPECT(open_places(&chain, all, 3, 0) == GIX_NO_GRAPH);
            chain.bytes[place][at] ^= 1;
        }
    chain.bytes[0][chain.files[0].bytes_len - 1] ^= 1;
    EXPECT(open_places(&chain, all, 1, 1) == GIX_OK && open_places(&chain, all, 2, 0) == GIX_NO_GRAPH);
    for (size_t len = 0; len < chain.files[2].bytes_len; len++) {
        write_chain(&chain);
        chain.files[2].bytes_len = len;
        EXPECT(open_places(&chain, all, 3, 0) == GIX_NO_GRAPH);
    }
    /* A level in the lowest file that is right there, and not less than those of the files above; and one that is missing. */
    write_chain(&chain);
    write_number(chain.bytes[0] + LEVEL_OF_LOWEST, 2 << 2);
    EXPECT(open_places(&chain, all, 1, 1) == GIX_OK && open_places(&chain, all, 3, 0) == GIX_NO_LEVELS);
    write_number(chain.bytes[0] + LEVEL_OF_LOWEST, 0);
    EXPECT(open_places(&chain, all, 1, 0) == GIX_NO_LEVELS && open_places(&chain, all, 3, 0) == GIX_NO_LEVELS);

    write_chain(&chain);
    EXPECT(gix_history_open_chain(chain.files, 3, 0, &history) == GIX_OK);
    memset(&chain, 0xEE, sizeof chain);
    over_files(history);
}

int main(void) {
    gix_history *history = NULL;
    EXPECT(gix_history_new(0, &history) == GIX_OK);
    fill(history);
    bases(history);
    ancestors(history);
    independent(history);
    counts(history);
    newest(history);
    commits(history);
    names(history);
    partial();
    partial_texts();
    rounds();
    lists();
    late_parent(history);
    descriptions(history);
    tables(history);
    texts(history);
    opened();
    opened_chain();
    objects();
    digits();
    abbreviations();
    codes();
    empty();
    gix_history_free(history);
    gix_history_free(NULL);
    puts(failed ? "failed" : "passed");
    return failed;
}
