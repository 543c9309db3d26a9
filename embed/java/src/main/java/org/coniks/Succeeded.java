package org.coniks;

import java.util.List;

/**
 * A client that goes on in another directory.
 *
 * @param client the client, which has the first entry that counts
 * @param voided the entries of the client before it that are void: those after the last epoch
 */
public record Succeeded(Client client, List<Bytes> voided) {}
