/* What bench/offline measures beside `ipmd offline`: the same disclosure by libfixbuf and a few lines by hand, for records of
 * this one template. An IPFIX stream comes on standard input. Records whose source is in 10.0.0.0/8 go to standard output,
 * without ipNextHopIPv4Address and with 24 bits of destinationIPv4Address. Standard error says how many were read and written.
 */
#include <stddef.h>
#include <stdio.h>
#include <stdlib.h>
#include <fixbuf/public.h>

/* A record as it lies in memory: the longest fields first, so that nothing lies between them. */
struct flow {
    uint64_t packets, octets, start, end;
    uint32_t source, destination, next_hop, ingress, egress;
    uint16_t source_port, destination_port, flags;
};
#define FLOW_OCTETS (offsetof(struct flow, flags) + sizeof(uint16_t))

static fbInfoElementSpec_t in_memory[] = {
    {"packetDeltaCount", 8, 0},
    {"octetDeltaCount", 8, 0},
    {"flowStartMilliseconds", 8, 0},
    {"flowEndMilliseconds", 8, 0},
    {"sourceIPv4Address", 4, 0},
    {"destinationIPv4Address", 4, 0},
    {"ipNextHopIPv4Address", 4, 0},
    {"ingressInterface", 4, 0},
    {"egressInterface", 4, 0},
    {"sourceTransportPort", 2, 0},
    {"destinationTransportPort", 2, 0},
    {"tcpControlBits", 2, 0},
    FB_IESPEC_NULL
};

static fbInfoElementSpec_t disclosed[] = {
    {"sourceIPv4Address", 4, 0},
    {"destinationIPv4Address", 4, 0},
    {"ingressInterface", 4, 0},
    {"egressInterface", 4, 0},
    {"packetDeltaCount", 8, 0},
    {"octetDeltaCount", 8, 0},
    {"flowStartMilliseconds", 8, 0},
    {"flowEndMilliseconds", 8, 0},
    {"sourceTransportPort", 2, 0},
    {"destinationTransportPort", 2, 0},
    {"tcpControlBits", 2, 0},
    FB_IESPEC_NULL
};

static void must(gboolean done, GError *fault)
{
    if (!done) {
        fprintf(stderr, "%s\n", fault ? fault->message : "failed");
        exit(1);
    }
}

static uint16_t add_template(fbSession_t *session, fbInfoModel_t *model, fbInfoElementSpec_t *fields, gboolean internal)
{
    GError *fault = NULL;
    fbTemplate_t *made = fbTemplateAlloc(model);
    must(fbTemplateAppendSpecArray(made, fields, 0, &fault), fault);
    uint16_t id = fbSessionAddTemplate(session, internal, FB_TID_AUTO, made, &fault);
    must(id != 0, fault);
    return id;
}

int main(void)
{
    GError *fault = NULL;
    fbInfoModel_t *model = fbInfoModelAlloc();

    fbSession_t *incoming = fbSessionAlloc(model);
    uint16_t read_as = add_template(incoming, model, in_memory, TRUE);
    fBuf_t *source = fBufAllocForCollection(incoming, fbCollectorAllocFP(NULL, stdin));
    must(fBufSetInternalTemplate(source, read_as, &fault), fault);

    fbSession_t *outgoing = fbSessionAlloc(model);
    uint16_t kept_as = add_template(outgoing, model, in_memory, TRUE);
    uint16_t written_as = add_template(outgoing, model, disclosed, FALSE);
    fBuf_t *target = fBufAllocForExport(outgoing, fbExporterAllocFP(stdout));
    must(fbSessionExportTemplates(outgoing, &fault), fault);
    must(fBufSetInternalTemplate(target, kept_as, &fault), fault);
    must(fBufSetExportTemplate(target, written_as, &fault), fault);

    unsigned long read = 0, written = 0;
    struct flow flow;
    for (;;) {
        size_t octets = FLOW_OCTETS;
        if (!fBufNext(source, (uint8_t *)&flow, &octets, &fault)) {
            must(g_error_matches(fault, FB_ERROR_DOMAIN, FB_ERROR_EOF), fault);
            g_clear_error(&fault);
            break;
        }
        read++;
        if (flow.source >> 24 != 10)
            continue;
        flow.destination &= 0xFFFFFF00;
        must(fBufAppend(target, (uint8_t *)&flow, FLOW_OCTETS, &fault), fault);
        written++;
    }
    must(fBufEmit(target, &fault), fault);
    must(fflush(stdout) == 0, NULL);
    fprintf(stderr, "records %lu disclosed %lu\n", read, written);
    return 0;
}
