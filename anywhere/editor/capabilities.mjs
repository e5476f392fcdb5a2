// What the adapter can do, as an editor is told.

export const FAULTS = "fault", CALLS = "call"; // the filters of exceptions

export const CAPABILITIES = {
  supportsConfigurationDoneRequest: true, supportsFunctionBreakpoints: true, supportsConditionalBreakpoints: true,
  supportsHitConditionalBreakpoints: true, supportsStepBack: true, supportsSteppingGranularity: true,
  supportsInstructionBreakpoints: true, supportsDataBreakpoints: true, supportsReadMemoryRequest: true,
  supportsDisassembleRequest: true, supportsEvaluateForHovers: true, supportsTerminateRequest: true,
  supportsRestartRequest: true, supportsExceptionInfoRequest: true, supportsExceptionFilterOptions: true,
  supportsGotoTargetsRequest: true, supportsBreakpointLocationsRequest: true,
  exceptionBreakpointFilters: [
    { filter: FAULTS, label: "Faults", description: "Stop before an instruction that can't be done", default: true },
    {
      filter: CALLS, label: "Kernel calls", description: "Stop after a kernel call", supportsCondition: true,
      conditionDescription: "Names of calls, as: fork exec. Without names, all of them",
    },
  ],
};
