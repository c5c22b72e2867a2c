// C++ protobuf as an opaque reader and writer, on the same fields in its own format: every field is an unknown one.
//   pb-set    UnknownFieldSet::ParseFromArray
//   pb-empty  a generated message without fields, whose parser keeps what it does not know in its UnknownFieldSet
// A set is used again from call to call, so that it keeps its room.
#include "../../driver/bench.h"
#include "empty.pb.h"
#include <google/protobuf/unknown_field_set.h>
#include <google/protobuf/wire_format.h>
using google::protobuf::UnknownField;
using google::protobuf::UnknownFieldSet;
using google::protobuf::internal::WireFormat;

static const UnknownFieldSet &fields(const UnknownFieldSet &set) { return set; }
static const UnknownFieldSet &fields(const benchpb::Empty &message) { return message.unknown_fields(); }

template <class T> static uint64_t read(const Load *l, Work *w) {
    T &message = *(T *)w->own;
    if (!message.ParseFromArray(l->pb, l->pb_len)) return REFUSED;
    const UnknownFieldSet &set = fields(message);
    uint64_t n = set.field_count();
    static T part;
    for (int i = 0; l->deep && i < set.field_count(); i++) {
        const UnknownField &f = set.field(i);
        if (f.type() != UnknownField::TYPE_LENGTH_DELIMITED) continue;
        part.ParseFromArray(f.length_delimited().data(), f.length_delimited().size());
        n += fields(part).field_count();
    }
    return n;
}
template <class T> static void *make(const Load *l, Work *) {
    T *message = new T;
    if (l->good) message->ParseFromArray(l->pb, l->pb_len);
    return message;
}
static uint64_t write(const Load *, Work *w) {
    w->wrote = w->out;
    return WireFormat::SerializeUnknownFieldsToArray(*(UnknownFieldSet *)w->own, w->out) - w->out;
}
static uint64_t measure(const Load *, Work *w) {
    return WireFormat::ComputeUnknownFieldsSize(*(UnknownFieldSet *)w->own);
}
#define SET .pb = 1, .prepare = make<UnknownFieldSet>
REGISTER(1, .kind = READ, .name = "pb-set", SET, .run = read<UnknownFieldSet>)
REGISTER(2, .kind = READ, .name = "pb-empty", .pb = 1, .prepare = make<benchpb::Empty>, .run = read<benchpb::Empty>)
REGISTER(3, .kind = WRITE, .name = "pb-set", SET, .run = write)
REGISTER(4, .kind = MEASURE, .name = "pb-set", SET, .run = measure)
