/* A reliable writer of eProsima Fast DDS, of the type of the Shapes demo, with the settings that Fast DDS has or is given.

       fastdds DOMAIN TOPIC STEP..

   It takes the steps one after the other, and leaves at the end:

       matched N      waits until N readers are matched, and says `N matched`
       matched N/T    the same, and until T have been matched in all
       write N        writes the next N shapes, BLUE at i, 2 i of size 30 for i from 1 on, 2 ms apart
       acks S         waits up to S seconds until the matched reliable readers have acknowledged all, and says `acknowledged`,
                      or else `not acknowledged`
       line           waits for a line of standard input, or for its end

   Its status is 0; 1 and a word on standard error where the readers don't come or leave within a minute, or where something can't be
   done; 2 for a bad line. */
#include <cstdio>
#include <cstdlib>
#include <cstring>
#include <chrono>
#include <string>
#include <thread>

#include <fastdds/dds/domain/DomainParticipant.hpp>
#include <fastdds/dds/domain/DomainParticipantFactory.hpp>
#include <fastdds/dds/publisher/DataWriter.hpp>
#include <fastdds/dds/publisher/Publisher.hpp>
#include <fastdds/dds/topic/TopicDataType.hpp>
#include <fastdds/dds/topic/TypeSupport.hpp>
#include <fastrtps/utils/md5.h>

using namespace eprosima::fastdds::dds;
namespace rtps = eprosima::fastrtps::rtps;
using eprosima::fastrtps::Duration_t;
using eprosima::fastrtps::types::ReturnCode_t;

struct Shape {
    std::string color;
    int32_t x, y, size;
};

/* The octets of a color as CDR: its length with the NUL, low octets first or last, and its characters. */
static size_t color_octets(const std::string &color, unsigned char *to, bool little) {
    uint32_t length = color.size() + 1;
    for (int i = 0; i < 4; i++) to[i] = length >> 8 * (little ? i : 3 - i);
    memcpy(to + 4, color.c_str(), length);
    return 4 + length;
}

/* The data type of the Shapes demo, with its CDR written by hand. */
class ShapeSupport : public TopicDataType {
public:
    ShapeSupport() {
        setName("ShapeType");
        m_typeSize = 4 + 4 + 132 + 12;
        m_isGetKeyDefined = true;
    }

    bool serialize(void *data, rtps::SerializedPayload_t *payload) override {
        const Shape &shape = *static_cast<Shape *>(data);
        const unsigned char front[4] = {0, 1, 0, 0};
        memcpy(payload->data, front, 4);
        size_t at = 4 + color_octets(shape.color, payload->data + 4, true);
        while (at % 4) payload->data[at++] = 0;
        for (int32_t number : {shape.x, shape.y, shape.size})
            for (int i = 0; i < 4; i++) payload->data[at++] = uint32_t(number) >> 8 * i;
        payload->encapsulation = CDR_LE;
        payload->length = at;
        return true;
    }

    bool deserialize(rtps::SerializedPayload_t *, void *) override { return false; }

    std::function<uint32_t()> getSerializedSizeProvider(void *) override {
        return [this] { return m_typeSize; };
    }

    void *createData() override { return new Shape(); }

    void deleteData(void *data) override { delete static_cast<Shape *>(data); }

    /* The hash of the key: the MD5 sum of the color in big-endian CDR. */
    bool getKey(void *data, rtps::InstanceHandle_t *handle, bool) override {
        unsigned char octets[4 + 129];
        MD5 sum;
        sum.init();
        sum.update(octets, color_octets(static_cast<Shape *>(data)->color, octets, false));
        sum.finalize();
        for (int i = 0; i < 16; i++) handle->value[i] = sum.digest[i];
        return true;
    }
};

static void fail(const char *what) {
    fprintf(stderr, "fastdds: %s\n", what);
    exit(1);
}

template <class T> static T *good(T *entity) {
    if (!entity) fail("an entity can't be created");
    return entity;
}

static DataWriterQos reliable() {
    DataWriterQos qos;
    qos.reliability().kind = RELIABLE_RELIABILITY_QOS;
    qos.durability().kind = VOLATILE_DURABILITY_QOS;
    qos.history().kind = KEEP_ALL_HISTORY_QOS;
    return qos;
}

static void wait_for_readers(DataWriter *writer, const char *wanted) {
    int now = 0, in_all = 0;
    sscanf(wanted, "%d/%d", &now, &in_all);
    PublicationMatchedStatus status;
    for (int turn = 0; turn < 12000; turn++) {
        writer->get_publication_matched_status(status);
        if (status.current_count == now && status.total_count >= in_all) {
            printf("%d matched\n", now);
            return;
        }
        std::this_thread::sleep_for(std::chrono::milliseconds(5));
    }
    fail("the readers don't come, or don't leave");
}

static void write_shapes(DataWriter *writer, int count) {
    static int last;
    for (int end = last + count; last < end;) {
        last++;
        Shape shape = {"BLUE", last, 2 * last, 30};
        if (!writer->write(&shape)) fail("a sample can't be written");
        std::this_thread::sleep_for(std::chrono::milliseconds(2));
    }
}

static void wait_for_acknowledgments(DataWriter *writer, int seconds) {
    bool acknowledged = writer->wait_for_acknowledgments(Duration_t(seconds, 0)) == ReturnCode_t::RETCODE_OK;
    puts(acknowledged ? "acknowledged" : "not acknowledged");
}

static void wait_for_line() {
    for (int octet = 0; octet != EOF && octet != '\n';) octet = getchar();
}

int main(int count, char **words) {
    if (count < 3) return 2;
    setvbuf(stdout, NULL, _IOLBF, 0);
    auto factory = DomainParticipantFactory::get_instance();
    factory->load_profiles();
    DomainParticipant *participant = good(factory->create_participant(atoi(words[1]), factory->get_default_participant_qos()));
    TypeSupport type(new ShapeSupport());
    type.register_type(participant);
    Topic *topic = good(participant->create_topic(words[2], "ShapeType", TOPIC_QOS_DEFAULT));
    DataWriter *writer = good(good(participant->create_publisher(PUBLISHER_QOS_DEFAULT))->create_datawriter(topic, reliable()));
    for (int at = 3; at < count; at++) {
        std::string step = words[at];
        if (step == "line") wait_for_line();
        else if (at + 1 == count) return 2;
        else if (step == "matched") wait_for_readers(writer, words[++at]);
        else if (step == "write") write_shapes(writer, atoi(words[++at]));
        else if (step == "acks") wait_for_acknowledgments(writer, atoi(words[++at]));
        else return 2;
    }
    participant->delete_contained_entities();
    factory->delete_participant(participant);
    return 0;
}
