/* libnids as a receiver: prints for each connection of a capture, as ADDR:PORT>ADDR:PORT HEX, what
   it delivers of the octets that the client sent and of those that the server sent.
   Build: cc -o libnids libnids.c -lnids -lpcap */

#include <arpa/inet.h>
#include <nids.h>
#include <stdio.h>
#include <stdlib.h>
#include <string.h>

struct octets {
    unsigned char *at;
    size_t length;
};

struct both {
    struct octets to_server, to_client;
};

static void add(struct octets *all, const struct half_stream *half)
{
    if (half->count_new <= 0)
        return;
    all->at = realloc(all->at, all->length + half->count_new);
    if (all->at == NULL)
        exit(1);
    memcpy(all->at + all->length, half->data, half->count_new);
    all->length += half->count_new;
}

static void print_end(u_int address, u_short port)
{
    struct in_addr host = { address };
    printf("%s:%d", inet_ntoa(host), port);
}

static void print(u_int from, u_short from_port, u_int to, u_short to_port, const struct octets *all)
{
    print_end(from, from_port);
    printf(">");
    print_end(to, to_port);
    printf(" ");
    for (size_t i = 0; i < all->length; i++)
        printf("%02x", all->at[i]);
    printf("\n");
}

static void take(struct tcp_stream *stream, void **known)
{
    struct both *both = *known;
    const struct tuple4 *ends = &stream->addr;
    if (stream->nids_state == NIDS_JUST_EST) {
        stream->server.collect++;
        stream->client.collect++;
        *known = calloc(1, sizeof *both);
        if (*known == NULL)
            exit(1);
    } else if (stream->nids_state == NIDS_DATA) {
        add(&both->to_server, &stream->server);
        add(&both->to_client, &stream->client);
    } else {
        print(ends->saddr, ends->source, ends->daddr, ends->dest, &both->to_server);
        print(ends->daddr, ends->dest, ends->saddr, ends->source, &both->to_client);
        fflush(stdout);
    }
}

static void ignore(int kind, int error, void *header, void *data)
{
    (void)kind, (void)error, (void)header, (void)data;
}

int main(int count, char **words)
{
    if (count != 2)
        return 2;
    nids_params.filename = words[1];
    nids_params.scan_num_hosts = 0;
    nids_params.n_tcp_streams = 65536;
    nids_params.syslog = ignore;
    if (!nids_init()) {
        fprintf(stderr, "%s\n", nids_errbuf);
        return 1;
    }
    nids_register_tcp(take);
    nids_run();
    nids_exit();
    return 0;
}
