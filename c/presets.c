/* PAPI's presets: the names, descriptions and kinds that PAPI has for them. The model has some of
 * them; a program gets another one if the preset file has a user event of its name without PAPI_
 * (codes.c). */
#include "posix.h"
#include "papi.h"
#include "presets.h"

#include <stdbool.h>
#include <string.h>
#include <strings.h>

#define MSC PAPI_PRESET_BIT_MSC
#define INS PAPI_PRESET_BIT_INS
#define IDL PAPI_PRESET_BIT_IDL
#define BR PAPI_PRESET_BIT_BR
#define CND PAPI_PRESET_BIT_CND
#define MEM PAPI_PRESET_BIT_MEM
#define CACH PAPI_PRESET_BIT_CACH
#define L1 PAPI_PRESET_BIT_L1
#define L2 PAPI_PRESET_BIT_L2
#define L3 PAPI_PRESET_BIT_L3
#define TLB PAPI_PRESET_BIT_TLB
#define FP PAPI_PRESET_BIT_FP
#define PRESET(name, description, long_description, kinds) \
    [name##_idx] = { #name, description, long_description, kinds }

/* Each in the place that its code has: papiStdEventDefs.h. */
static const kl_preset presets[PAPI_END_idx] = {
    PRESET(PAPI_L1_DCM, "L1D cache misses", "Level 1 data cache misses", CACH | L1),
    PRESET(PAPI_L1_ICM, "L1I cache misses", "Level 1 instruction cache misses", CACH | L1 | INS),
    PRESET(PAPI_L2_DCM, "L2D cache misses", "Level 2 data cache misses", CACH | L2),
    PRESET(PAPI_L2_ICM, "L2I cache misses", "Level 2 instruction cache misses", CACH | L2 | INS),
    PRESET(PAPI_L3_DCM, "L3D cache misses", "Level 3 data cache misses", CACH | L3),
    PRESET(PAPI_L3_ICM, "L3I cache misses", "Level 3 instruction cache misses", CACH | L3 | INS),
    PRESET(PAPI_L1_TCM, "L1 cache misses", "Level 1 cache misses", CACH | L1),
    PRESET(PAPI_L2_TCM, "L2 cache misses", "Level 2 cache misses", CACH | L2),
    PRESET(PAPI_L3_TCM, "L3 cache misses", "Level 3 cache misses", CACH | L3),
    PRESET(PAPI_CA_SNP, "Snoop Requests", "Requests for a snoop", CACH),
    PRESET(PAPI_CA_SHR, "Ex Access shared CL", "Requests for exclusive access to shared cache line",
           CACH),
    PRESET(PAPI_CA_CLN, "Ex Access clean CL", "Requests for exclusive access to clean cache line",
           CACH),
    PRESET(PAPI_CA_INV, "Cache ln invalid", "Requests for cache line invalidation", CACH),
    PRESET(PAPI_CA_ITV, "Cache ln intervene", "Requests for cache line intervention", CACH),
    PRESET(PAPI_L3_LDM, "L3 load misses", "Level 3 load misses", CACH | L3),
    PRESET(PAPI_L3_STM, "L3 store misses", "Level 3 store misses", CACH | L3),
    PRESET(PAPI_BRU_IDL, "Branch idle cycles", "Cycles branch units are idle", IDL | BR),
    PRESET(PAPI_FXU_IDL, "IU idle cycles", "Cycles integer units are idle", IDL),
    PRESET(PAPI_FPU_IDL, "FPU idle cycles", "Cycles floating point units are idle", IDL | FP),
    PRESET(PAPI_LSU_IDL, "L/SU idle cycles", "Cycles load/store units are idle", IDL | MEM),
    PRESET(PAPI_TLB_DM, "Data TLB misses", "Data translation lookaside buffer misses", TLB),
    PRESET(PAPI_TLB_IM, "Instr TLB misses", "Instruction translation lookaside buffer misses",
           TLB | INS),
    PRESET(PAPI_TLB_TL, "Total TLB misses", "Total translation lookaside buffer misses", TLB),
    PRESET(PAPI_L1_LDM, "L1 load misses", "Level 1 load misses", CACH | L1),
    PRESET(PAPI_L1_STM, "L1 store misses", "Level 1 store misses", CACH | L1),
    PRESET(PAPI_L2_LDM, "L2 load misses", "Level 2 load misses", CACH | L2),
    PRESET(PAPI_L2_STM, "L2 store misses", "Level 2 store misses", CACH | L2),
    PRESET(PAPI_BTAC_M, "Br targt addr miss", "Branch target address cache misses", BR),
    PRESET(PAPI_PRF_DM, "Data prefetch miss", "Data prefetch cache misses", CACH),
    PRESET(PAPI_L3_DCH, "L3D cache hits", "Level 3 data cache hits", CACH | L2),
    PRESET(PAPI_TLB_SD, "TLB shootdowns", "Translation lookaside buffer shootdowns", TLB),
    PRESET(PAPI_CSR_FAL, "Failed store cond", "Failed store conditional instructions", CND | MEM),
    PRESET(PAPI_CSR_SUC, "Good store cond", "Successful store conditional instructions", CND | MEM),
    PRESET(PAPI_CSR_TOT, "Total store cond", "Total store conditional instructions", CND | MEM),
    PRESET(PAPI_MEM_SCY, "Stalled mem cycles", "Cycles Stalled Waiting for memory accesses", MEM),
    PRESET(PAPI_MEM_RCY, "Stalled rd cycles", "Cycles Stalled Waiting for memory Reads", MEM),
    PRESET(PAPI_MEM_WCY, "Stalled wr cycles", "Cycles Stalled Waiting for memory writes", MEM),
    PRESET(PAPI_STL_ICY, "No instr issue", "Cycles with no instruction issue", INS),
    PRESET(PAPI_FUL_ICY, "Max instr issue", "Cycles with maximum instruction issue", INS),
    PRESET(PAPI_STL_CCY, "No instr done", "Cycles with no instructions completed", INS),
    PRESET(PAPI_FUL_CCY, "Max instr done", "Cycles with maximum instructions completed", INS),
    PRESET(PAPI_HW_INT, "Hdw interrupts", "Hardware interrupts", MSC),
    PRESET(PAPI_BR_UCN, "Uncond branch", "Unconditional branch instructions", BR | CND),
    PRESET(PAPI_BR_CN, "Cond branch", "Conditional branch instructions", BR | CND),
    PRESET(PAPI_BR_TKN, "Cond branch taken", "Conditional branch instructions taken", BR | CND),
    PRESET(PAPI_BR_NTK, "Cond br not taken", "Conditional branch instructions not taken", BR | CND),
    PRESET(PAPI_BR_MSP, "Cond br mspredictd", "Conditional branch instructions mispredicted",
           BR | CND),
    PRESET(PAPI_BR_PRC, "Cond br predicted", "Conditional branch instructions correctly predicted",
           BR | CND),
    PRESET(PAPI_FMA_INS, "FMAs completed", "FMA instructions completed", INS | FP),
    PRESET(PAPI_TOT_IIS, "Instr issued", "Instructions issued", INS),
    PRESET(PAPI_TOT_INS, "Instr completed", "Instructions completed", INS),
    PRESET(PAPI_INT_INS, "Int instructions", "Integer instructions", INS),
    PRESET(PAPI_FP_INS, "FP instructions", "Floating point instructions", INS | FP),
    PRESET(PAPI_LD_INS, "Loads", "Load instructions", MEM),
    PRESET(PAPI_SR_INS, "Stores", "Store instructions", MEM),
    PRESET(PAPI_BR_INS, "Branches", "Branch instructions", BR),
    PRESET(PAPI_VEC_INS, "Vector/SIMD instr", "Vector/SIMD instructions (could include integer)",
           MSC),
    PRESET(PAPI_RES_STL, "Stalled res cycles", "Cycles stalled on any resource", IDL | MSC),
    PRESET(PAPI_FP_STAL, "Stalled FPU cycles", "Cycles the FP unit(s) are stalled", IDL | FP),
    PRESET(PAPI_TOT_CYC, "Total cycles", "Total cycles", MSC),
    PRESET(PAPI_LST_INS, "L/S completed", "Load/store instructions completed", INS | MEM),
    PRESET(PAPI_SYC_INS, "Syncs completed", "Synchronization instructions completed", INS | MSC),
    PRESET(PAPI_L1_DCH, "L1D cache hits", "Level 1 data cache hits", CACH | L1),
    PRESET(PAPI_L2_DCH, "L2D cache hits", "Level 2 data cache hits", CACH | L2),
    PRESET(PAPI_L1_DCA, "L1D cache accesses", "Level 1 data cache accesses", CACH | L1),
    PRESET(PAPI_L2_DCA, "L2D cache accesses", "Level 2 data cache accesses", CACH | L2),
    PRESET(PAPI_L3_DCA, "L3D cache accesses", "Level 3 data cache accesses", CACH | L3),
    PRESET(PAPI_L1_DCR, "L1D cache reads", "Level 1 data cache reads", CACH | L1),
    PRESET(PAPI_L2_DCR, "L2D cache reads", "Level 2 data cache reads", CACH | L2),
    PRESET(PAPI_L3_DCR, "L3D cache reads", "Level 3 data cache reads", CACH | L3),
    PRESET(PAPI_L1_DCW, "L1D cache writes", "Level 1 data cache writes", CACH | L1),
    PRESET(PAPI_L2_DCW, "L2D cache writes", "Level 2 data cache writes", CACH | L2),
    PRESET(PAPI_L3_DCW, "L3D cache writes", "Level 3 data cache writes", CACH | L3),
    PRESET(PAPI_L1_ICH, "L1I cache hits", "Level 1 instruction cache hits", CACH | L1 | INS),
    PRESET(PAPI_L2_ICH, "L2I cache hits", "Level 2 instruction cache hits", CACH | L2 | INS),
    PRESET(PAPI_L3_ICH, "L3I cache hits", "Level 3 instruction cache hits", CACH | L3 | INS),
    PRESET(PAPI_L1_ICA, "L1I cache accesses", "Level 1 instruction cache accesses",
           CACH | L1 | INS),
    PRESET(PAPI_L2_ICA, "L2I cache accesses", "Level 2 instruction cache accesses",
           CACH | L2 | INS),
    PRESET(PAPI_L3_ICA, "L3I cache accesses", "Level 3 instruction cache accesses",
           CACH | L3 | INS),
    PRESET(PAPI_L1_ICR, "L1I cache reads", "Level 1 instruction cache reads", CACH | L1 | INS),
    PRESET(PAPI_L2_ICR, "L2I cache reads", "Level 2 instruction cache reads", CACH | L2 | INS),
    PRESET(PAPI_L3_ICR, "L3I cache reads", "Level 3 instruction cache reads", CACH | L3 | INS),
    PRESET(PAPI_L1_ICW, "L1I cache writes", "Level 1 instruction cache writes", CACH | L1 | INS),
    PRESET(PAPI_L2_ICW, "L2I cache writes", "Level 2 instruction cache writes", CACH | L2 | INS),
    PRESET(PAPI_L3_ICW, "L3I cache writes", "Level 3 instruction cache writes", CACH | L3 | INS),
    PRESET(PAPI_L1_TCH, "L1 cache hits", "Level 1 total cache hits", CACH | L1),
    PRESET(PAPI_L2_TCH, "L2 cache hits", "Level 2 total cache hits", CACH | L2),
    PRESET(PAPI_L3_TCH, "L3 cache hits", "Level 3 total cache hits", CACH | L3),
    PRESET(PAPI_L1_TCA, "L1 cache accesses", "Level 1 total cache accesses", CACH | L1),
    PRESET(PAPI_L2_TCA, "L2 cache accesses", "Level 2 total cache accesses", CACH | L2),
    PRESET(PAPI_L3_TCA, "L3 cache accesses", "Level 3 total cache accesses", CACH | L3),
    PRESET(PAPI_L1_TCR, "L1 cache reads", "Level 1 total cache reads", CACH | L1),
    PRESET(PAPI_L2_TCR, "L2 cache reads", "Level 2 total cache reads", CACH | L2),
    PRESET(PAPI_L3_TCR, "L3 cache reads", "Level 3 total cache reads", CACH | L3),
    PRESET(PAPI_L1_TCW, "L1 cache writes", "Level 1 total cache writes", CACH | L1),
    PRESET(PAPI_L2_TCW, "L2 cache writes", "Level 2 total cache writes", CACH | L2),
    PRESET(PAPI_L3_TCW, "L3 cache writes", "Level 3 total cache writes", CACH | L3),
    PRESET(PAPI_FML_INS, "FPU multiply", "Floating point multiply instructions", INS | FP),
    PRESET(PAPI_FAD_INS, "FPU add", "Floating point add instructions", INS | FP),
    PRESET(PAPI_FDV_INS, "FPU divide", "Floating point divide instructions", INS | FP),
    PRESET(PAPI_FSQ_INS, "FPU square root", "Floating point square root instructions", INS | FP),
    PRESET(PAPI_FNV_INS, "FPU inverse", "Floating point inverse instructions", INS | FP),
    PRESET(PAPI_FP_OPS, "FP operations", "Floating point operations", INS | FP),
    PRESET(
        PAPI_SP_OPS, "SP operations",
        "Floating point operations; optimized to count scaled single precision vector operations",
        INS | FP),
    PRESET(
        PAPI_DP_OPS, "DP operations",
        "Floating point operations; optimized to count scaled double precision vector operations",
        INS | FP),
    PRESET(PAPI_VEC_SP, "SP Vector/SIMD instr", "Single precision vector/SIMD instructions",
           INS | FP),
    PRESET(PAPI_VEC_DP, "DP Vector/SIMD instr", "Double precision vector/SIMD instructions",
           INS | FP),
    PRESET(PAPI_REF_CYC, "Reference cycles", "Reference clock cycles", MSC),
};

/* tools/make_presets: begin */
static const int modelled[] = {
    PAPI_L1_DCM, PAPI_L1_ICM, PAPI_L2_DCM, PAPI_L2_ICM, PAPI_L1_TCM, PAPI_L2_TCM, PAPI_L3_TCM,
    PAPI_TLB_DM, PAPI_TLB_IM, PAPI_L1_LDM, PAPI_L1_STM, PAPI_BR_UCN, PAPI_BR_CN, PAPI_BR_TKN,
    PAPI_BR_NTK, PAPI_BR_MSP, PAPI_BR_PRC, PAPI_TOT_INS, PAPI_LD_INS, PAPI_SR_INS, PAPI_BR_INS,
    PAPI_RES_STL, PAPI_TOT_CYC, PAPI_LST_INS, PAPI_FP_OPS, PAPI_REF_CYC,
};
/* tools/make_presets: end */

/* Whether the model has the preset itself. */
bool kl_is_modelled(const kl_preset *preset) {
    int code = (int)(preset - presets) | PAPI_PRESET_MASK;
    for (size_t i = 0; i < sizeof modelled / sizeof *modelled; i++)
        if (modelled[i] == code) return true;
    return false;
}

const kl_preset *kl_preset_of(int code) {
    unsigned place = (unsigned)code & PAPI_PRESET_AND_MASK;
    return IS_PRESET(code) && place < PAPI_END_idx ? &presets[place] : NULL;
}

/* The code of a preset by its name, or PAPI_ENOEVNT. After PAPI_ the name is compared without
 * regard to case, as PAPI does. */
int kl_preset_named(const char *name, int *code) {
    for (int place = 0; !strncmp(name, "PAPI_", 5) && place < PAPI_END_idx; place++)
        if (!strcasecmp(name, presets[place].name)) {
            *code = place | PAPI_PRESET_MASK;
            return PAPI_OK;
        }
    return PAPI_ENOEVNT;
}

/* A preset's name as the unit's tables spell it; any other name is itself. */
const char *kl_spelled(const char *name) {
    int code;
    return kl_preset_named(name, &code) == PAPI_OK ? kl_preset_of(code)->name : name;
}
