// Reads records from regions of pnuts.

export { Client } from "./client.js";
export { Control } from "./control.js";
export * from "./errors.js";
export { Regions } from "./regions.js";
export { Record, compareVersions, eq, gt, has, lt, prefix } from "./replies.js";
