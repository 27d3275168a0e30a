#include "types.h"

namespace {

// The collector reads where the references of a type are from the words before its method table.
struct Type {
    CGCDescSeries series;
    size_t series_count;
    MethodTable table;
};

Type types[2][MOST_FIELDS + 1];
bool are_made = false;

const size_t FIRST_FIELD = offsetof(Cell, fields);

void make_types() {
    for (int finalizable = 0; finalizable < 2; finalizable++) {
        for (int fields = 0; fields <= MOST_FIELDS; fields++) {
            Type& type = types[finalizable][fields];
            size_t size = sizeof(ObjHeader) + FIRST_FIELD + fields * sizeof(Object*);
            type.table.m_baseSize = (uint32_t)size;
            type.table.m_componentSize = 0;
            type.table.m_flags = (fields > 0 ? MTFlag_ContainsPointers : 0) | (finalizable ? MTFlag_HasFinalizer : 0);
            type.table.m_pRelatedType = nullptr;
            type.series_count = 1;
            type.series.SetSeriesOffset(FIRST_FIELD);
            type.series.SetSeriesSize(fields * sizeof(Object*) - size);
        }
    }
    are_made = true;
}

}  // namespace

MethodTable* type_of(int fields, bool finalizable) {
    if (!are_made) make_types();
    return &types[finalizable ? 1 : 0][fields].table;
}

Cell* make_object(int fields, bool finalizable, uint64_t name) {
    Cell* made = (Cell*)engine::allocate(type_of(fields, finalizable), finalizable);
    if (made == nullptr) {
        fprintf(stderr, "coreclr: out of memory\n");
        exit(6);
    }
    made->name = name;
    return made;
}

int fields_of(Object* object) {
    size_t size = object->RawGetMethodTable()->GetBaseSize();
    return (int)((size - sizeof(ObjHeader) - FIRST_FIELD) / sizeof(Object*));
}

std::string name_of(Object* object) {
    if (object == nullptr) return "null";
    uint64_t name = ((Cell*)object)->name;
    return "obj " + std::to_string(name >> 32) + "." + std::to_string(name & 0xFFFFFFFF);
}
