// What the types allow and refuse. It is not run.

import { Client, Control, Notices, Page, PnutsError, Record, RecordBehind, Regions, Value, Version, compareVersions, eq, gt, has, prefix } from "pnuts-client";

const client = new Client("unix:region", { connections: 2, timeout: Infinity, tls: { ca: "" } });
const several = new Client(["tcp://a", "tcp://b"], { remember: 100 });

export async function reads(): Promise<Value | undefined> {
  const record: Record | null = await client.read("k", { atLeast: [1, 0] });
  const [first]: (Record | null)[] = await client.get(["a", "b"]);
  for await (const each of client.scan({ from: "a", where: [has("f"), eq("f", 1n), gt("f", 9), prefix("f", "x")] })) {
    compareVersions(each.version, [1, 0]);
  }
  const page: Page = await client.page();
  for await (const records of client.pages(page.next ?? {})) {
    records.map((each) => each.contents[0].master);
  }
  await client.copy(0, "copy", { need: { east: 1 } });
  const both = new Regions(["m"], [client, several]);
  await both.of("k").close();
  // @ts-expect-error: a record may be absent
  record.key;
  // @ts-expect-error: a condition on a text takes no number
  prefix("f", 1);
  // @ts-expect-error: records are read only
  if (first) first.key = "k";
  return record?.fields?.["f"];
}

export async function changes(): Promise<Notices | undefined> {
  const region = new Control("unix:control");
  const { streams, lines, tablets } = await region.stats();
  const since: number | null | undefined = streams[0]?.since;
  const counts: number[] = [lines.answered, lines.kinds?.["read"]?.refused ?? 0, tablets?.[0]?.records ?? 0];
  for await (const found of region.watch(since ?? undefined)) {
    found.changes.map((each) => each.before ?? each.after ?? counts);
    return found;
  }
  return undefined;
}

export function hasOf(fault: unknown): Version | null {
  return fault instanceof RecordBehind ? fault.has : null;
}

export function othersOf(fault: unknown): string[] {
  return fault instanceof PnutsError ? fault.others.map(({ address, fault }) => `${address}: ${fault.message}`) : [];
}
