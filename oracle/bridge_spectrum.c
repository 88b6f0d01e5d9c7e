// The bridge's calls of the functions on spectra: one form of request for all of them. The inputs: the
// function, alpha, beta, the stage, log gain, first, the lengths of three arrays, then the arrays, of which a
// function takes the first one, two or three. The answers: the function's number, and the arrays after it.
#include <stddef.h>
#include <stdint.h>

typedef const double *In;
typedef double *Out;
typedef size_t N;
uint64_t kipawnore_mc2b(In c, N nc, double alpha, Out b, N nb);
uint64_t kipawnore_b2mc(In b, N nb, double alpha, Out c, N nc);
uint64_t kipawnore_freqt(In c, N nc, double alpha, Out warped, N nwarped);
uint64_t kipawnore_c2ir(In c, N nc, Out ir, N nir);
uint64_t kipawnore_b2en(In b, N nb, double alpha, Out energy, N nenergy);
uint64_t kipawnore_gnorm(Out c, N nc, uint64_t s);
uint64_t kipawnore_ignorm(Out c, N nc, uint64_t s);
uint64_t kipawnore_gc2gc(In c, N nc, uint64_t s, Out d, N nd);
uint64_t kipawnore_postfilter_mcp(Out c, N nc, double alpha, double beta);
uint64_t kipawnore_lsp2lpc(In lsp, N nlsp, Out lpc, N nlpc);
uint64_t kipawnore_lsp2mgc(In lsp, N nlsp, _Bool log_gain, uint64_t s, Out mgc, N nmgc);
uint64_t kipawnore_lsp2en(In lsp, N nlsp, _Bool log_gain, uint64_t s, Out energy, N nenergy);
uint64_t kipawnore_postfilter_lsp(Out lsp, N nlsp, double beta, _Bool log_gain, uint64_t s);
uint64_t kipawnore_check_lsp_stability(Out lsp, N nlsp);
uint64_t kipawnore_prepare_mcp(In spectrum, N n, double alpha, double beta, _Bool first, Out start, N nstart, Out targets, N ntargets);
uint64_t kipawnore_prepare_lsp(In spectrum, N n, double alpha, double beta, _Bool log_gain, uint64_t s, _Bool first, Out start, N nstart,
                               Out targets, N ntargets);

void *memcpy(void *to, const void *from, size_t size);
_Noreturn void leave(int status);

enum {
    MC2B, B2MC, FREQT, C2IR, B2EN, GNORM, IGNORM, GC2GC, POSTFILTER_MCP,
    LSP2LPC, LSP2MGC, LSP2EN, POSTFILTER_LSP, CHECK_LSP_STABILITY, PREPARE_MCP, PREPARE_LSP
};
enum { ROOM = 1024 };

typedef struct { uint64_t function; double alpha, beta; uint64_t s, log_gain, first, lengths[3]; } Asked;

static uint64_t call(const Asked *asked, double *x, double *y, double *z) {
    double alpha = asked->alpha, beta = asked->beta;
    uint64_t s = asked->s;
    _Bool log_gain = asked->log_gain != 0, first = asked->first != 0;
    size_t nx = asked->lengths[0], ny = asked->lengths[1], nz = asked->lengths[2];
    switch (asked->function) {
        case MC2B: return kipawnore_mc2b(x, nx, alpha, y, ny);
        case B2MC: return kipawnore_b2mc(x, nx, alpha, y, ny);
        case FREQT: return kipawnore_freqt(x, nx, alpha, y, ny);
        case C2IR: return kipawnore_c2ir(x, nx, y, ny);
        case B2EN: return kipawnore_b2en(x, nx, alpha, y, ny);
        case GNORM: return kipawnore_gnorm(x, nx, s);
        case IGNORM: return kipawnore_ignorm(x, nx, s);
        case GC2GC: return kipawnore_gc2gc(x, nx, s, y, ny);
        case POSTFILTER_MCP: return kipawnore_postfilter_mcp(x, nx, alpha, beta);
        case LSP2LPC: return kipawnore_lsp2lpc(x, nx, y, ny);
        case LSP2MGC: return kipawnore_lsp2mgc(x, nx, log_gain, s, y, ny);
        case LSP2EN: return kipawnore_lsp2en(x, nx, log_gain, s, y, ny);
        case POSTFILTER_LSP: return kipawnore_postfilter_lsp(x, nx, beta, log_gain, s);
        case CHECK_LSP_STABILITY: return kipawnore_check_lsp_stability(x, nx);
        case PREPARE_MCP: return kipawnore_prepare_mcp(x, nx, alpha, beta, first, y, ny, z, nz);
        default: return kipawnore_prepare_lsp(x, nx, alpha, beta, log_gain, s, first, y, ny, z, nz); // PREPARE_LSP
    }
}

// Answers a request whose inputs are read; gives the number of answers.
size_t spectrum(const uint64_t *inputs, uint64_t *answers) {
    static double arrays[ROOM * 3];
    Asked asked;
    memcpy(&asked, inputs, sizeof asked);
    size_t x = asked.lengths[0], y = asked.lengths[1], z = asked.lengths[2];
    if (x > ROOM || y > ROOM || z > ROOM) leave(3);
    memcpy(arrays, inputs + sizeof asked / 8, (x + y + z) * 8);
    answers[0] = call(&asked, arrays, arrays + x, arrays + x + y);
    memcpy(answers + 1, arrays, (x + y + z) * 8);
    return 1 + x + y + z;
}
