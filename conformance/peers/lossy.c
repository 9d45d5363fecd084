/* A library that is loaded before a program starts, and sends its UDP datagrams as a bad network would: of ten one is lost,
   one comes twice, and one is held back until the next was sent. Which ones is a fixed sequence of numbers. At the end it
   says on standard error how many there were of each. */
#define _GNU_SOURCE
#include <dlfcn.h>
#include <pthread.h>
#include <stdio.h>
#include <string.h>
#include <sys/socket.h>
#include <sys/uio.h>

typedef ssize_t (*sender)(int, const struct msghdr *, int);

static struct { int socket, there; size_t octets, of_address; char data[65536]; struct sockaddr_storage address; } held;
static unsigned long state = 20110, sent, lost, doubled, late;
static pthread_mutex_t one_at_a_time = PTHREAD_MUTEX_INITIALIZER;

/* The next number of the sequence, from 0 to 9. */
static unsigned draw(void) {
    state = state * 6364136223846793005UL + 1442695040888963407UL;
    return (state >> 33) % 10;
}

/* Keeps a datagram, and returns its octets. */
static size_t hold(int socket, const struct msghdr *message) {
    held.socket = socket;
    held.there = 1;
    held.octets = 0;
    for (size_t i = 0; i < message->msg_iovlen; i++) {
        memcpy(held.data + held.octets, message->msg_iov[i].iov_base, message->msg_iov[i].iov_len);
        held.octets += message->msg_iov[i].iov_len;
    }
    held.of_address = message->msg_namelen;
    memcpy(&held.address, message->msg_name, message->msg_namelen);
    return held.octets;
}

static void release(sender send) {
    struct iovec octets = {held.data, held.octets};
    struct msghdr message = {.msg_name = &held.address, .msg_namelen = held.of_address, .msg_iov = &octets, .msg_iovlen = 1};
    if (held.there) send(held.socket, &message, 0);
    held.there = 0;
}

static size_t octets_in(const struct msghdr *message) {
    size_t octets = 0;
    for (size_t i = 0; i < message->msg_iovlen; i++) octets += message->msg_iov[i].iov_len;
    return octets;
}

/* A datagram: one to an IPv4 address, that can be held back. */
static int is_datagram(const struct msghdr *message) {
    const struct sockaddr *to = message->msg_name;
    if (!to || to->sa_family != AF_INET || message->msg_namelen > sizeof held.address) return 0;
    return octets_in(message) <= sizeof held.data;
}

ssize_t sendmsg(int socket, const struct msghdr *message, int flags) {
    static sender send;
    if (!send) send = (sender)dlsym(RTLD_NEXT, "sendmsg");
    if (!is_datagram(message)) return send(socket, message, flags);
    pthread_mutex_lock(&one_at_a_time);
    ssize_t result = octets_in(message);
    unsigned drawn = draw();
    sent++;
    if (drawn == 0) lost++;
    else if (drawn == 2 && !held.there) late++, hold(socket, message);
    else {
        result = send(socket, message, flags);
        if (drawn == 1) doubled++, send(socket, message, flags);
        release(send);
    }
    pthread_mutex_unlock(&one_at_a_time);
    return result;
}

ssize_t sendto(int socket, const void *data, size_t octets, int flags, const struct sockaddr *to, socklen_t of_address) {
    struct iovec part = {(void *)data, octets};
    struct msghdr message = {.msg_name = (void *)to, .msg_namelen = of_address, .msg_iov = &part, .msg_iovlen = 1};
    return sendmsg(socket, &message, flags);
}

__attribute__((destructor)) static void say(void) {
    fprintf(stderr, "lossy: %lu sent, %lu lost, %lu twice, %lu late\n", sent, lost, doubled, late);
}
