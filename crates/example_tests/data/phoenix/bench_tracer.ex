defmodule BenchTracer do
  @moduledoc """
  Writes what the shards of a `Phoenix.Tracker` do as events that `presence_bench import` reads, one JSON object a line.

  On each node of the cluster, once, from a remote console or at start-up:

      {:ok, tracer} = BenchTracer.start("events.jsonl", [MyApp.Presence_shard0])

  where the names are those of the shards' processes (`Process.registered/0` lists them) or their pids. Trace one shard of a
  tracker at a time, the same one on every node: each shard is a cluster of its own to the bench. `BenchTracer.online(tracer)`
  writes what each shard lists just then, and `BenchTracer.stop(tracer)` ends it. Then put the files of all nodes behind each
  other: `cat events-*.jsonl | presence_bench import`.

  No code of a shard is touched. `:sys.install/2` tells each message that a shard takes, and its state behind it; what changed is
  read off the two states. A request for a transfer changes no state, so a trace of what the shard sends tells it: nothing else
  may trace the shard meanwhile. Both cost each shard some microseconds a message; the events wait a second in the tracer, to be
  put in order, and then go to the file.
  """

  @doc "Follows these shards, and writes their events to the file."
  def start(path, shards) do
    {:ok, file} = File.open(path, [:write, :utf8, :delayed_write])
    tracer = spawn(fn -> follow(%{file: file, shards: [], waiting: []}) end)
    for shard <- shards, do: call(tracer, {:attach, pid_of(shard)})
    {:ok, tracer}
  end

  @doc "Writes what each shard lists."
  def online(tracer), do: call(tracer, :online)

  @doc "Lets go of the shards, and writes what is left."
  def stop(tracer), do: call(tracer, :stop)

  defp pid_of(shard) when is_pid(shard), do: shard
  defp pid_of(shard), do: Process.whereis(shard)

  defp call(tracer, what) do
    ref = make_ref()
    send(tracer, {:call, self(), ref, what})
    receive do: ({^ref, answer} -> answer)
  end

  # The tracer's own process

  # An event that a shard made waits this long for those that it made earlier and that are still on their way.
  @lag System.convert_time_unit(1, :second, :native)

  defp follow(state) do
    receive do
      {:call, from, ref, {:attach, shard}} ->
        attach(shard)
        send(from, {ref, :ok})
        follow(%{state | shards: [shard | state.shards]})

      {:call, from, ref, :online} ->
        for shard <- state.shards, do: list(shard)
        send(from, {ref, :ok})
        follow(state)

      {:call, from, ref, :stop} ->
        for shard <- state.shards, do: detach(shard)
        write(drain(state), :infinity)
        File.close(state.file)
        send(from, {ref, :ok})

      message ->
        follow(noted(state, message))
    after
      500 -> follow(write(state, System.monotonic_time() - @lag))
    end
  end

  defp drain(state) do
    receive do
      message -> drain(noted(state, message))
    after
      200 -> state
    end
  end

  defp noted(state, {:step, at, time, node, message, old, new}),
    do: %{state | waiting: [{at, time, events(node, message, old, new)} | state.waiting]}

  defp noted(state, {:listed, at, time, node, rows}),
    do: %{state | waiting: [{at, time, [[node: node, event: "online", rows: rows]]} | state.waiting]}

  # What a shard tells the tracer has the message that it took, which may be a request.
  defp noted(state, {:trace_ts, _shard, :send, _message, tracer, _at}) when tracer == self(), do: state

  defp noted(state, {:trace_ts, _shard, :send, message, _to, at}) do
    case request_in(message) do
      {ref, from} ->
        event = [node: name(from), event: "request", message: "request " <> text(ref)]
        %{state | waiting: [{at, DateTime.utc_now(), [event]} | state.waiting]}

      nil ->
        state
    end
  end

  defp noted(state, _other), do: state

  # Writes the events that were made before this point, in their order.
  defp write(state, before) do
    {ready, waiting} = Enum.split_with(state.waiting, fn {{at, _}, _, _} -> before == :infinity or at < before end)

    for {_, time, events} <- Enum.sort_by(ready, &elem(&1, 0)), event <- events do
      IO.puts(state.file, json(event ++ [time: DateTime.to_iso8601(time)]))
    end

    %{state | waiting: waiting}
  end

  # What runs in the shard's process

  defp attach(shard) do
    tracer = self()
    :sys.install(shard, {:bench, fn seen, event, _ -> seen(seen, event, tracer) end, {nil, :sys.get_state(shard).presences}})
    :erlang.trace(shard, true, [:send, :strict_monotonic_timestamp, {:tracer, tracer}])
  end

  defp detach(shard) do
    :erlang.trace(shard, false, [:send])
    :sys.remove(shard, :bench)
  end

  defp list(shard) do
    tracer = self()

    :sys.replace_state(shard, fn state ->
      send(tracer, {:listed, now(), DateTime.utc_now(), name(state.presences.replica), rows(state.presences)})
      state
    end)
  end

  # A message comes in, with what the shard's table has of its process; then the state behind it is there.
  defp seen({_, old}, {:in, message}, _tracer), do: {{message, now(), present(old, message)}, old}
  defp seen({_, old}, {:in, message, _from}, _tracer), do: {{message, now(), present(old, message)}, old}
  defp seen(seen, {:noreply, state}, tracer), do: step(seen, state.presences, tracer)
  defp seen(seen, {:out, _reply, _to, state}, tracer), do: step(seen, state.presences, tracer)
  defp seen(seen, _event, _tracer), do: seen

  defp step({nil, _old}, new, _tracer), do: {nil, new}

  defp step({{message, at, present?}, old}, new, tracer) do
    send(tracer, {:step, at, DateTime.utc_now(), name(new.replica), {message, present?}, old, new})
    {nil, new}
  end

  defp now, do: {:erlang.monotonic_time(), :erlang.unique_integer([:monotonic])}

  # Whether the process that ended has entries here.
  defp present(presences, {:EXIT, pid, _reason}), do: :ets.match(presences.values, {{:_, pid, :_}, :_, {presences.replica, :_}}, 1) != :"$end_of_table"
  defp present(_presences, _message), do: false

  # What the node lists: the live entries of the replicas that it takes as up.
  defp rows(presences) do
    for {{topic, pid, key}, meta, {replica, _clock}} <- :ets.tab2list(presences.values), presences.replicas[replica] == :up do
      [topic: topic, key: key, node: name(replica), pid: text(pid), meta: meta]
    end
  end

  # Events

  # What a step did: the statuses that changed, and what its message asked.
  defp events(node, {message, present?}, old, new) do
    statuses =
      for replica <- Enum.uniq(Map.keys(old.replicas) ++ Map.keys(new.replicas)), old.replicas[replica] != new.replicas[replica] do
        [node: node, event: status(new.replicas[replica]), name: name(replica)]
      end

    statuses ++ Enum.map(asked(message, present?, old, new), &[{:node, node} | &1])
  end

  defp status(:up), do: "up"
  defp status(:down), do: "down"
  defp status(nil), do: "permdown"

  defp asked({:"$gen_call", _from, call}, present?, old, new), do: asked(call, present?, old, new)

  defp asked(call, _, old, new) when elem(call, 0) in [:track, :untrack, :update] do
    if old.context == new.context, do: [], else: tracked(call, new)
  end

  defp asked({:EXIT, pid, _reason}, true, _old, _new), do: [[event: "leave_all", pid: text(pid)]]

  defp asked(:heartbeat, _, old, _new) do
    if tags(old.delta) == [], do: [], else: [[event: "broadcast", message: delta(old.delta)]]
  end

  defp asked({:pub, :heartbeat, _from, :empty, _clocks}, _, _, _), do: []

  defp asked({:pub, :heartbeat, from, sent, _clocks}, _, _, _),
    do: [[event: "deliver", from: name(from), message: delta(sent)]]

  defp asked({:pub, :transfer_req, ref, from, _clocks}, _, _, _),
    do: [[event: "answer", from: name(from), message: "request " <> text(ref), sends: "answer " <> text(ref)]]

  defp asked({:pub, :transfer_ack, ref, from, _sent}, _, _, _),
    do: [[event: "deliver", from: name(from), message: "answer " <> text(ref)]]

  defp asked(_other, _, _, _), do: []

  # The metadata is that of the entry, which has a `phx_ref` that the call has not.
  defp tracked({verb, pid, topic, key, _meta}, new) when verb in [:track, :update] do
    {^pid, ^topic, ^key, meta} = new.delta.values[{new.replica, new.context[new.replica]}]
    event = if verb == :track, do: "join", else: "update"
    [[event: event, pid: text(pid), topic: topic, key: key, meta: meta]]
  end

  defp tracked({:untrack, pid, topic, key}, _new), do: [[event: "leave", pid: text(pid), topic: topic, key: key]]
  defp tracked({:untrack, pid}, _new), do: [[event: "leave_all", pid: text(pid)]]

  # A request may stand inside of what carries it to another node.
  defp request_in({:pub, :transfer_req, ref, from, _clocks}), do: {ref, from}
  defp request_in(message) when is_tuple(message), do: message |> Tuple.to_list() |> Enum.find_value(&request_in/1)
  defp request_in(_other), do: nil

  # Names, the same on every node

  # A delta has no number: it is known again by its tags.
  defp delta(sent), do: "delta " <> Base.encode16(:erlang.md5(:erlang.term_to_binary(tags(sent))), case: :lower)

  defp tags(sent), do: sent.clouds |> Enum.flat_map(fn {_replica, cloud} -> MapSet.to_list(cloud) end) |> Enum.sort()

  # A node that is started again is another replica: its second part tells.
  defp name({node, version}), do: "#{node}/#{version}"
  defp name(%{name: node, vsn: version}), do: name({node, version})

  # The first number of a pid or a reference differs from node to node: the node's name stands in its place.
  defp text(pid) when is_pid(pid), do: "#{node(pid)} " <> without_first(:erlang.pid_to_list(pid))
  defp text(ref) when is_reference(ref), do: "#{node(ref)} " <> without_first(:erlang.ref_to_list(ref))

  defp without_first(list), do: list |> List.to_string() |> String.split(".", parts: 2) |> List.last() |> String.trim_trailing(">")

  # JSON

  defp json(value) when is_binary(value) do
    if String.valid?(value), do: [?", escaped(value), ?"], else: json(%{bytes: Base.encode16(value)})
  end

  defp json(value) when value in [true, false, nil], do: if(value == nil, do: "null", else: "#{value}")
  defp json(value) when is_integer(value), do: Integer.to_string(value)
  defp json(value) when is_atom(value), do: json(Atom.to_string(value))
  defp json(value) when is_pid(value) or is_reference(value), do: json(text(value))
  defp json([{key, _} | _] = value) when is_atom(key), do: object(value)
  defp json(value) when is_list(value), do: [?[, value |> Enum.map(&json/1) |> Enum.intersperse(?,), ?]]
  defp json(value) when is_struct(value), do: json(inspect(value))
  defp json(value) when is_map(value), do: object(value)
  defp json(value) when is_tuple(value), do: json(%{tuple: Tuple.to_list(value)})
  defp json(value), do: json(inspect(value))

  defp object(value) do
    fields = for {key, field} <- value, do: [json(if(is_binary(key), do: key, else: key_text(key))), ?:, json(field)]
    [?{, Enum.intersperse(fields, ?,), ?}]
  end

  defp key_text(key) when is_atom(key), do: Atom.to_string(key)
  defp key_text(key), do: inspect(key)

  defp escaped(text) do
    for <<byte <- text>>, into: "" do
      cond do
        byte in [?", ?\\] -> <<?\\, byte>>
        byte < 0x20 -> "\\u" <> String.pad_leading(Integer.to_string(byte, 16), 4, "0")
        true -> <<byte>>
      end
    end
  end
end
