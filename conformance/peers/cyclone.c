/* A reliable writer of Eclipse Cyclone DDS, of the type of the Shapes demo.

       cyclone DOMAIN TOPIC STEP..

   It takes the steps one after the other, and leaves at the end:

       matched N      waits until N readers are matched, and says `N matched`
       matched N/T    the same, and until T have been matched in all
       write N        writes the next N shapes, BLUE at i, 2 i of size 30 for i from 1 on, 2 ms apart
       acks S         waits up to S seconds until the matched reliable readers have acknowledged all, and says `acknowledged`,
                      or else `not acknowledged`
       line           waits for a line of standard input, or for its end

   Its status is 0; 1 and a word on standard error where the readers don't come or leave within a minute, or where something can't be
   done; 2 for a bad line. */
#include "ShapeType.h"
#include "dds/dds.h"
#include <stdio.h>
#include <stdlib.h>
#include <string.h>

static dds_return_t good(dds_return_t result) {
    if (result < 0) {
        fprintf(stderr, "cyclone: %s\n", dds_strretcode(-result));
        exit(1);
    }
    return result;
}

static void wait_for_readers(dds_entity_t writer, const char *wanted) {
    unsigned now = 0, in_all = 0;
    sscanf(wanted, "%u/%u", &now, &in_all);
    dds_publication_matched_status_t status;
    for (int turn = 0; turn < 12000; turn++) {
        good(dds_get_publication_matched_status(writer, &status));
        if (status.current_count == now && status.total_count >= in_all) {
            printf("%u matched\n", now);
            return;
        }
        dds_sleepfor(DDS_MSECS(5));
    }
    fprintf(stderr, "cyclone: %u readers are matched, and not %s\n", status.current_count, wanted);
    exit(1);
}

static void write_shapes(dds_entity_t writer, int count) {
    static int last;
    for (int end = last + count; last < end;) {
        last++;
        ShapeType shape = {"BLUE", last, 2 * last, 30};
        good(dds_write(writer, &shape));
        dds_sleepfor(DDS_MSECS(2));
    }
}

static void wait_for_acknowledgments(dds_entity_t writer, int seconds) {
    dds_return_t result = dds_wait_for_acks(writer, DDS_SECS(seconds));
    if (result != DDS_RETCODE_TIMEOUT) good(result);
    puts(result == DDS_RETCODE_TIMEOUT ? "not acknowledged" : "acknowledged");
}

static void wait_for_line(void) {
    for (int octet = 0; octet != EOF && octet != '\n';) octet = getchar();
}

static dds_entity_t reliable_writer(dds_entity_t participant, const char *name) {
    dds_qos_t *qos = dds_create_qos();
    dds_qset_reliability(qos, DDS_RELIABILITY_RELIABLE, DDS_SECS(10));
    dds_qset_history(qos, DDS_HISTORY_KEEP_ALL, 0);
    dds_entity_t topic = good(dds_create_topic(participant, &ShapeType_desc, name, NULL, NULL));
    dds_entity_t writer = good(dds_create_writer(participant, topic, qos, NULL));
    dds_delete_qos(qos);
    return writer;
}

int main(int count, char **words) {
    if (count < 3) return 2;
    setvbuf(stdout, NULL, _IOLBF, 0);
    dds_entity_t participant = good(dds_create_participant(atoi(words[1]), NULL, NULL));
    dds_entity_t writer = reliable_writer(participant, words[2]);
    for (int at = 3; at < count; at++) {
        const char *step = words[at];
        if (!strcmp(step, "line")) wait_for_line();
        else if (at + 1 == count) return 2;
        else if (!strcmp(step, "matched")) wait_for_readers(writer, words[++at]);
        else if (!strcmp(step, "write")) write_shapes(writer, atoi(words[++at]));
        else if (!strcmp(step, "acks")) wait_for_acknowledgments(writer, atoi(words[++at]));
        else return 2;
    }
    good(dds_delete(participant));
    return 0;
}
