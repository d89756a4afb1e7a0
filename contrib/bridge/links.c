/* The two interfaces: what the kernel knows of them, and the sockets with their receive rings. */
#include "norm-bridge.h"
#include <arpa/inet.h>
#include <linux/filter.h>
#include <linux/rtnetlink.h>
#include <net/ethernet.h>
#include <net/if.h>
#include <net/if_arp.h>
#include <sys/mman.h>

/* Octets of an interface's rings, of one ring at least, and of a slot around the packet. */
enum { RINGS = 64 << 20, LEAST_RING = 4 << 20, BLOCK = 1 << 17, SLOT_HEAD = 80, LINK_HEADS = 18 };
static const struct sock_fprog nothing = {1, (struct sock_filter[]){BPF_STMT(BPF_RET | BPF_K, 0)}};

/* Reads a link's state and MTU. Refuses a bridge's port and an address: ways past norm. */
static void judge(struct side *side, const struct nlmsghdr *answer) {
    const struct ifinfomsg *link = NLMSG_DATA(answer);
    const struct ifaddrmsg *address = NLMSG_DATA(answer);
    int left = (int)IFLA_PAYLOAD(answer);
    if (answer->nlmsg_type == RTM_NEWADDR && address->ifa_index == side->index)
        fail(2, "%s has an address: ip address flush dev %s", side->name, side->name);
    if (answer->nlmsg_type != RTM_NEWLINK || (unsigned)link->ifi_index != side->index) return;
    if (link->ifi_type != ARPHRD_ETHER) fail(2, "%s is no Ethernet interface", side->name);
    side->up = link->ifi_flags & IFF_UP;
    for (const struct rtattr *part = IFLA_RTA(link); RTA_OK(part, left); part = RTA_NEXT(part, left)) {
        if (part->rta_type == IFLA_MASTER)
            fail(2, "%s is a port of another bridge or bond: ip link set %s nomaster", side->name, side->name);
        if (part->rta_type == IFLA_MTU) memcpy(&side->mtu, RTA_DATA(part), sizeof side->mtu);
    }
}

/* Asks the kernel for all links or all addresses, and judges each. */
static void ask(uint16_t type) {
    static _Alignas(struct nlmsghdr) char answers[1 << 16];
    const struct { struct nlmsghdr head; struct ifinfomsg link; } question = {
        {sizeof question, type, NLM_F_REQUEST | NLM_F_DUMP, 1, 0}, {.ifi_family = AF_UNSPEC}};
    int channel = socket(AF_NETLINK, SOCK_RAW | SOCK_CLOEXEC, NETLINK_ROUTE);
    ssize_t got = channel < 0 ? -1 : send(channel, &question, sizeof question, 0);
    for (bool last = false; !last;) {
        if (got >= 0) got = recv(channel, answers, sizeof answers, 0);
        if (got <= 0) fail(2, "netlink: %s", strerror(errno));
        unsigned left = (unsigned)got;
        for (const struct nlmsghdr *one = (const void *)answers; NLMSG_OK(one, left); one = NLMSG_NEXT(one, left)) {
            if (one->nlmsg_type == NLMSG_ERROR) fail(2, "netlink: the kernel refuses the question");
            last = last || one->nlmsg_type == NLMSG_DONE;
            for (int k = 0; k < SIDES; k++) judge(&sides[k], one);
        }
    }
    close(channel);
}

static void set(int socket, int level, int option, const void *value, size_t size) {
    if (setsockopt(socket, level, option, value, (socklen_t)size) < 0)
        fail(2, "option %d of a socket: %s", option, strerror(errno));
}

/* A worker has the frames whose inside address modulo workers is its number; the first the rest. */
void set_filters(bool receive) {
    for (uint64_t j = 0; j < options.jobs; j++)
        for (int k = 0; k < SIDES; k++) {
            struct sock_filter lines[] = {
                BPF_STMT(BPF_LD | BPF_W | BPF_ABS, (uint32_t)(SKF_AD_OFF + SKF_AD_VLAN_TAG_PRESENT)),
                BPF_JUMP(BPF_JMP | BPF_JEQ | BPF_K, 0, 0, 7),
                BPF_STMT(BPF_LD | BPF_W | BPF_ABS, (uint32_t)(SKF_AD_OFF + SKF_AD_PROTOCOL)),
                BPF_JUMP(BPF_JMP | BPF_JEQ | BPF_K, ETH_P_IP, 0, 5),
                BPF_STMT(BPF_LD | BPF_W | BPF_LEN, 0),
                BPF_JUMP(BPF_JMP | BPF_JGE | BPF_K, ETH_HLEN + 20, 0, 3),
                BPF_STMT(BPF_LD | BPF_W | BPF_ABS, (uint32_t)SKF_NET_OFF + (k == NORM_OUTSIDE ? 16 : 12)),
                BPF_STMT(BPF_ALU | BPF_MOD | BPF_K, (uint32_t)options.jobs),
                BPF_JUMP(BPF_JMP | BPF_JA, 1, 0, 0),
                BPF_STMT(BPF_LD | BPF_IMM, 0),
                BPF_JUMP(BPF_JMP | BPF_JEQ | BPF_K, (uint32_t)j, 0, 1),
                BPF_STMT(BPF_RET | BPF_K, UINT32_MAX),
                BPF_STMT(BPF_RET | BPF_K, 0),
            };
            struct sock_fprog program = {sizeof lines / sizeof *lines, lines};
            int socket = workers[j].ports[k].socket;
            set(socket, SOL_SOCKET, SO_ATTACH_FILTER, receive ? &program : &nothing, sizeof program);
        }
}

/* Opens a worker's socket on an interface. It receives nothing before the filters are set. */
static void open_port(struct port *port, const struct side *side) {
    int version = TPACKET_V2, one = 1, size = 8 << 20, index = (int)side->index;
    size_t share = RINGS / options.jobs > LEAST_RING ? RINGS / options.jobs / BLOCK * BLOCK : LEAST_RING;
    struct sockaddr_ll link = {.sll_family = AF_PACKET, .sll_protocol = htons(ETH_P_ALL), .sll_ifindex = index};
    struct packet_mreq all = {.mr_ifindex = index, .mr_type = PACKET_MR_PROMISC};
    /* A power of two, so that a block has whole slots. */
    for (port->slot = 2048; port->slot < SLOT_HEAD + LINK_HEADS + side->mtu;) port->slot *= 2;
    port->slots = (unsigned)(share / port->slot);
    struct tpacket_req ring = {BLOCK, (unsigned)(share / BLOCK), (unsigned)port->slot, port->slots};
    port->socket = socket(AF_PACKET, SOCK_RAW | SOCK_CLOEXEC, 0);
    if (port->socket < 0) fail(2, "%s: %s: CAP_NET_RAW is needed", side->name, strerror(errno));
    set(port->socket, SOL_SOCKET, SO_ATTACH_FILTER, &nothing, sizeof nothing);
    set(port->socket, SOL_PACKET, PACKET_VERSION, &version, sizeof version);
    set(port->socket, SOL_PACKET, PACKET_RX_RING, &ring, sizeof ring);
    set(port->socket, SOL_PACKET, PACKET_QDISC_BYPASS, &one, sizeof one);
    set(port->socket, SOL_PACKET, PACKET_IGNORE_OUTGOING, &one, sizeof one);
    if (setsockopt(port->socket, SOL_SOCKET, SO_SNDBUFFORCE, &size, sizeof size) < 0)
        setsockopt(port->socket, SOL_SOCKET, SO_SNDBUF, &size, sizeof size);
    port->ring = mmap(NULL, share, PROT_READ | PROT_WRITE, MAP_SHARED, port->socket, 0);
    if (port->ring == MAP_FAILED || bind(port->socket, (struct sockaddr *)&link, sizeof link) < 0)
        fail(2, "%s: %s", side->name, strerror(errno));
    set(port->socket, SOL_PACKET, PACKET_ADD_MEMBERSHIP, &all, sizeof all);
}

void open_sides(void) {
    char name[IF_NAMESIZE];
    for (int k = 0; k < SIDES; k++) {
        sides[k].index = if_nametoindex(sides[k].name);
        if (sides[k].index == 0) fail(2, "%s: no such interface", sides[k].name);
    }
    if (sides[0].index == sides[1].index) fail(2, "%s: OUTSIDE and INSIDE are one", sides[1].name);
    ask(RTM_GETLINK);
    ask(RTM_GETADDR);
    for (int k = 0; k < SIDES; k++)
        for (bool said = false; !sides[k].up; said = true) {
            if (!said) say("%s is down: waiting until it is up", sides[k].name);
            wait_once();
            if (is_ending()) exit(0);
            if (!if_indextoname(sides[k].index, name)) fail(1, "%s is gone", sides[k].name);
            ask(RTM_GETLINK);
        }
    for (uint64_t j = 0; j < options.jobs; j++)
        for (int k = 0; k < SIDES; k++) open_port(&workers[j].ports[k], &sides[k]);
    /* What has changed while a link was waited for. */
    ask(RTM_GETLINK);
    ask(RTM_GETADDR);
}

/* Warns of a setting of the kernel for an interface that need not be wrong. */
static void warn(const char *side, const char *what, const char *setting, int wrong) {
    int value;
    char path[128] = "/proc/sys/net/", *name = path + strlen(path);
    snprintf(name, path + sizeof path - name, setting, side);
    FILE *file = fopen(path, "re");
    if (file && fscanf(file, "%d", &value) == 1 && value == wrong)
        say("warning: %s: sysctl net/%s=%d", what, name, !wrong);
    if (file) fclose(file);
}

void warn_of_sides(void) {
    for (const struct side *side = sides; side < sides + SIDES; side++) {
        warn(side->name, "this machine forwards IPv4", "ipv4/conf/%s/forwarding", 1);
        warn(side->name, "this machine answers ARP and packets", "ipv4/conf/%s/rp_filter", 0);
        warn(side->name, "IPv6 is on", "ipv6/conf/%s/disable_ipv6", 0);
    }
}
