/* flood ADDRESS PORT SECONDS FROM: sends small datagrams from FROM to an endpoint, 100,000 a second, and prints how many. */
#include <arpa/inet.h>
#include <netinet/in.h>
#include <stdint.h>
#include <stdio.h>
#include <stdlib.h>
#include <string.h>
#include <sys/socket.h>
#include <time.h>

enum { A_MILLISECOND = 100 };

static double seconds(void) {
    struct timespec at;
    clock_gettime(CLOCK_MONOTONIC, &at);
    return (double)at.tv_sec + (double)at.tv_nsec / 1e9;
}

int main(int count, char **words) {
    struct sockaddr_in to = {.sin_family = AF_INET}, from = {.sin_family = AF_INET};
    if (count != 5 || inet_pton(AF_INET, words[1], &to.sin_addr) != 1 || inet_pton(AF_INET, words[4], &from.sin_addr) != 1)
        return 2;
    to.sin_port = htons((uint16_t)atoi(words[2]));
    int fd = socket(AF_INET, SOCK_DGRAM, 0);
    if (fd < 0 || bind(fd, (struct sockaddr *)&from, sizeof from) != 0 || connect(fd, (struct sockaddr *)&to, sizeof to) != 0)
        return 1;
    /* a REQUEST of a method that is not offered, with another session each time */
    uint8_t bytes[20] = {0x11, 0x11, 0x04, 0x20, 0, 0, 0, 12, 0x07, 0x07, 0, 0, 1, 1, 0, 0, 1, 2, 3, 4};
    double begun = seconds(), length = atof(words[3]);
    uint64_t sent = 0;
    while (seconds() - begun < length) {
        for (size_t i = 0; i < A_MILLISECOND; i++) {
            bytes[10] = (uint8_t)(sent >> 8);
            bytes[11] = (uint8_t)sent;
            sent += send(fd, bytes, sizeof bytes, 0) == sizeof bytes;
        }
        double ahead = begun + (double)sent / (1000.0 * A_MILLISECOND) - seconds();
        if (ahead > 0) {
            struct timespec pause = {.tv_nsec = (long)(ahead * 1e9)};
            nanosleep(&pause, NULL);
        }
    }
    printf("%llu\n", (unsigned long long)sent);
    return 0;
}
