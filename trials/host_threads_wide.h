/* Of trials/host_threads.c: the calls that do several commands at once, or none, beside the same model. */

static void on_make(struct worker *me) {
    struct at at = any_local(me);
    hdt_local src[FIELDS];
    hdt_id fields[FIELDS] = { 0 };
    uint32_t count = any(me, FIELDS + 1);
    bool is_final = any(me, 4) == 0;
    for (uint32_t i = 0; i < count; i++) {
        src[i] = any(me, LOCALS);
        fields[i] = me->locals[at.c][src[i]];
    }
    hdt_id due = ((hdt_id)(me->number * each + at.c) << 32) + me->made[at.c] + 1;
    CALL(hdt_object_make(me->end, at.c, at.d, is_final ? HDT_FINALIZABLE : 0, value_of(due), src, count, &me->out.id));
    if (me->status == HDT_HEAP_FULL) {
        make_room(me);
        return;
    }
    must(me, HDT_OK, "object_make");
    expect(me, me->out.id == due, "another identity than the next of the context");
    struct thing *thing = one_more(me, at.c);
    thing->count = (uint8_t)count;
    memcpy(thing->fields, fields, sizeof fields);
    set_local(me, at.c, at.d, due);
    if (is_final) expect(me, atomic_exchange(flag_of(me, due), 1) == 0, "made twice");
}

static void has_value(struct worker *me, hdt_id id) {
    expect(me, me->out.value == (id ? value_of(id) : 0), "the value of another object");
}

static void on_field_load(struct worker *me) {
    struct at at;
    if (!full_local(me, &at)) return;
    struct thing *thing = thing_of(me, me->locals[at.c][at.d]);
    uint32_t i = any(me, FIELDS + 1), to = any(me, LOCALS);
    CALL(hdt_field_load(me->end, at.c, to, at.d, i, &me->out.id, &me->out.value));
    if (me->status == HDT_NO_FIELD && (!thing || i >= thing->count)) return;
    must(me, HDT_OK, "field_load");
    expect(me, !thing || (i < thing->count && me->out.id == thing->fields[i]), "another field than was written");
    has_value(me, me->out.id);
    set_local(me, at.c, to, me->out.id);
}

/* An own handle was seen to have a target, by a call that put it into a local or into none. */
static void saw(struct worker *me, struct hold *it, hdt_id id, struct home home) {
    bool was_sure = is_sure(me, it);
    expect(me, !was_sure || id == it->target, "the target of an own handle is another");
    if (id == 0 && !was_sure) it->target = 0;
    has_target(me, it, id, home);
}

static void on_handle_load(struct worker *me) {
    struct hold *it = any_hold(me);
    if (!it) return;
    struct at at = any_local(me);
    CALL(hdt_handle_load(me->end, at.c, it->handle, at.d, &me->out.id, &me->out.value));
    must(me, HDT_OK, "handle_load");
    hdt_id id = me->out.id;
    has_value(me, id);
    bool was_sure = is_sure(me, it);
    expect(me, !was_sure || id == it->target, "the target of an own handle is another");
    set_local(me, at.c, at.d, id);
    if (id == 0 && !was_sure) it->target = 0;
    has_target(me, it, id, home_of(me, at.c, at.d));
}

static void on_handle_id(struct worker *me) {
    struct hold *it = any_hold(me);
    struct home none = { .is = false };
    if (!it) return;
    CALL(hdt_handle_id(me->end, it->handle, &me->out.id));
    must(me, HDT_OK, "handle_id");
    saw(me, it, me->out.id, none);
}

static void on_pass(struct worker *me) {
    struct at from = any_local(me), to = any_local(me);
    CALL(hdt_local_pass(me->end, to.c, to.d, from.c, from.d, &me->out.id));
    must(me, HDT_OK, "local_pass");
    expect(me, me->out.id == me->locals[from.c][from.d], "another object than was left in the local");
    set_local(me, to.c, to.d, me->out.id);
}

static void on_locals_clear(struct worker *me) {
    unsigned c = any(me, each), first = any(me, LOCALS + 1), n = any(me, LOCALS - first + 1);
    if (any(me, 4)) n = n < 3 ? n : 3;
    CALL(hdt_locals_clear(me->end, c, first, n));
    must(me, HDT_OK, "locals_clear");
    for (unsigned d = first; d < first + n; d++) set_local(me, c, d, 0);
}

static void on_locals(struct worker *me) {
    unsigned c = any(me, each);
    CALL(hdt_locals(me->end, c, me->out.ids, LOCALS));
    must(me, HDT_OK, "locals");
    expect(me, memcmp(me->out.ids, me->locals[c], sizeof me->out.ids) == 0, "other objects than were left in the locals");
}

static void on_context_left(struct worker *me) {
    unsigned c = any(me, each);
    CALL(hdt_context_left(me->end, c, &me->out.number));
    must(me, HDT_OK, "context_left");
    expect(me, me->out.number == UINT32_MAX - me->made[c], "another number of objects was made");
}

static void on_object_info(struct worker *me) {
    struct at at = any_local(me);
    hdt_id id = me->locals[at.c][at.d];
    struct thing *thing = thing_of(me, id);
    CALL(hdt_object_info(me->end, at.c, at.d, &me->out.object));
    must(me, id ? HDT_OK : HDT_NULL, "object_info");
    if (id == 0) return;
    hdt_object_out is = me->out.object;
    expect(me, is.id == id && is.value == value_of(id) && is.finalizable <= 1 && is.generation <= 2, "another object");
    if (!thing) return;
    expect(me, is.fields == thing->count && is.generation >= thing->generation, "an own object is another");
    thing->generation = (uint8_t)is.generation;
}

/* The own handles of the kinds are in the list; of those whose target is null, the ones that are known to have none. */
static void on_list_of(struct worker *me) {
    uint32_t kinds = 1 + any(me, 127), cleared = any(me, 2), from = 0;
    bool is_listed[HOLDS] = { false };
    struct home none = { .is = false };
    do {
        CALL(hdt_handles_of(me->end, kinds, cleared, from, me->out.rows, ROWS, &me->out.count, &me->out.next));
        must(me, HDT_OK, "handles_of");
        expect(me, me->out.count <= ROWS && (me->out.next == 0 || me->out.next > from), "a list that goes back");
        for (size_t row = 0; row < me->out.count; row++) {
            hdt_handle_info info = me->out.rows[row];
            expect(me, (kinds >> info.kind & 1) != 0 && (!cleared || info.target == 0), "a handle that was not asked for");
            for (size_t i = 0; i < me->holding; i++) {
                if (me->holds[i].handle != info.handle) continue;
                expect(me, !is_listed[i], "an own handle is in the list twice");
                is_listed[i] = true;
                saw(me, &me->holds[i], info.target, none);
            }
        }
        from = me->out.next;
    } while (from != 0);
    for (size_t i = 0; i < me->holding; i++) {
        struct hold *it = &me->holds[i];
        bool is_due = (kinds >> it->kind & 1) != 0 && (!cleared || it->target == 0);
        expect(me, is_listed[i] || !is_due, "an own handle is not in the list");
    }
}

static void on_sizes(struct worker *me) {
    uint32_t objects = 0, cells = 0;
    CALL(hdt_sizes(me->end, &me->out.sizes));
    must(me, HDT_OK, "sizes");
    for (unsigned n = 0; n < 3; n++) {
        objects += me->out.sizes.objects[n];
        cells += me->out.sizes.cells[n];
    }
    expect(me, cells <= CELLS && objects * 3 <= cells && me->out.sizes.idle_slots <= SLOTS, "sizes");
    last(me, true);
}

static void on_trim_all(struct worker *me) {
    CALL(hdt_trim_all(me->end, &me->out.number));
    must(me, HDT_OK, "trim_all");
    expect(me, me->out.number <= BLOCKS, "more blocks than there are");
}

static void on_table_set(struct worker *me) {
    struct at at;
    if (!full_local(me, &at)) return;
    struct thing *thing = thing_of(me, me->locals[at.c][at.d]);
    unsigned value = any(me, LOCALS);
    if (!thing) return;
    CALL(hdt_table_set(me->end, at.c, at.d, value));
    if (me->status == HDT_TABLE_FULL) return;
    must(me, HDT_OK, "table_set");
    thing->entry = me->locals[at.c][value];
    thing->has_entry = true;
    thing->entry_home = home_of(me, at.c, at.d);
}
