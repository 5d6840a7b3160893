// A bare echo loop: sends back what comes, over so many connections, each in a thread of its own.
//
//   echo CONNECTIONS
//
// Prints `listening 127.0.0.1:PORT` first.
#include <arpa/inet.h>
#include <pthread.h>
#include <stdio.h>
#include <stdlib.h>
#include <unistd.h>

static void *echo(void *place) {
    int peer = (int)(size_t)place;
    char bytes[4096];
    ssize_t count;
    while ((count = read(peer, bytes, sizeof bytes)) > 0) {
        for (ssize_t sent = 0; sent < count;) {
            ssize_t more = write(peer, bytes + sent, count - sent);
            if (more <= 0) return NULL;
            sent += more;
        }
    }
    close(peer);
    return NULL;
}

int main(int count, char **words) {
    int connections = count == 2 ? atoi(words[1]) : 0, listener = socket(AF_INET, SOCK_STREAM, 0);
    struct sockaddr_in address = {.sin_family = AF_INET, .sin_addr.s_addr = htonl(INADDR_LOOPBACK)};
    socklen_t length = sizeof address;
    if (connections < 1 || bind(listener, (struct sockaddr *)&address, length) != 0 || listen(listener, 128) != 0) return 1;
    getsockname(listener, (struct sockaddr *)&address, &length);
    printf("listening 127.0.0.1:%d\n", ntohs(address.sin_port));
    fflush(stdout);
    pthread_t threads[connections];
    for (int place = 0; place < connections; place++) {
        int peer = accept(listener, NULL, NULL);
        if (peer < 0 || pthread_create(&threads[place], NULL, echo, (void *)(size_t)peer) != 0) return 1;
    }
    for (int place = 0; place < connections; place++) pthread_join(threads[place], NULL);
    return 0;
}
