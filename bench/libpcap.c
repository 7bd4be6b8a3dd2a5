/* The payloads of a capture by libpcap: its records, and the tests of the savefile reading on each. */
#include <pcap/pcap.h>
#include <stdint.h>

static unsigned u16_at(const u_char *bytes, unsigned at)
{
    return (unsigned)bytes[at] << 8 | bytes[at + 1];
}

/* Counts the payloads on a port, and adds up their lengths and first bytes, and their times in
   microseconds. 0 where the file cannot be opened. */
int libpcap_sum(const char *path, uint16_t port, uint64_t *count, uint64_t *sum, uint64_t *times)
{
    char error[PCAP_ERRBUF_SIZE];
    struct pcap_pkthdr *header;
    const u_char *bytes;
    pcap_t *capture = pcap_open_offline(path, error);

    *count = *sum = *times = 0;
    if (!capture)
        return 0;
    while (pcap_next_ex(capture, &header, &bytes) == 1) {
        unsigned ip = 14, ihl, udp, length;

        if (header->caplen < 42)
            continue;
        if (u16_at(bytes, 12) == 0x8100)
            ip += 4;
        ihl = bytes[ip] & 15;
        udp = ip + 4 * ihl;
        /* The low 14 bits at byte 6 are those of a fragment. */
        if (u16_at(bytes, ip - 2) != 0x0800 || bytes[ip] >> 4 != 4 || bytes[ip + 9] != 17 || ihl < 5 ||
            (u16_at(bytes, ip + 6) & 0x3fff) != 0 || header->caplen < udp + 8 ||
            (port && u16_at(bytes, udp + 2) != port))
            continue;
        length = u16_at(bytes, udp + 4);
        if (length < 9 || length > header->caplen - udp)
            continue;
        *count += 1;
        *sum += length - 8 + bytes[udp + 8];
        *times += (uint64_t)header->ts.tv_sec * 1000000 + (uint64_t)header->ts.tv_usec;
    }
    pcap_close(capture);
    return 1;
}
