// For imports of the module by its path: the types are in sarpuntxe.d.ts.
export * from "./sarpuntxe.js";
